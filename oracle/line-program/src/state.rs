//! The whole state in lines, as the Rust keeps it.

use crate::answer::Answer;
use crate::engine::Assignments;
use crate::engine::cp::assignments::BoundSeen;
use crate::stop::attempt;
use crate::store::Outcome;
use crate::store::Store;
use crate::variables::DomainId;

pub(crate) fn print(store: &Store, (): (), answer: &mut Answer) -> Outcome {
    attempt(|| {
        print_trail(&store.rust, answer);
        for number in 0..store.rust.num_domains() {
            print_variable(&store.rust, DomainId::new(number), answer);
        }
    })
}

fn print_trail(rust: &Assignments, answer: &mut Answer) {
    answer.line("checkpoint");
    answer.field(rust.get_checkpoint());
    for length in rust.trail.lengths_at_opening() {
        answer.field(length);
    }
    answer.line("count");
    answer.field(rust.get_pruned_value_count());
    for position in 0..rust.num_trail_entries() {
        answer.line("entry");
        answer.field(position);
        answer.entry(&rust.get_trail_entry(position));
    }
}

fn print_variable(rust: &Assignments, id: DomainId, answer: &mut Answer) {
    answer.line("variable");
    answer.field(id.id());
    answer.field(rust.get_lower_bound(id));
    answer.field(rust.get_upper_bound(id));
    answer.field(rust.initial_mark(id));
    for update in rust.lower_updates(id) {
        print_bound("lower", id, &update, answer);
    }
    for update in rust.upper_updates(id) {
        print_bound("upper", id, &update, answer);
    }
    print_holes(rust, id, answer);
}

fn print_bound(side: &str, id: DomainId, update: &BoundSeen, answer: &mut Answer) {
    answer.line(side);
    answer.field(id.id());
    answer.field(update.bound);
    answer.field(update.checkpoint);
    answer.field(update.position);
}

fn print_holes(rust: &Assignments, id: DomainId, answer: &mut Answer) {
    for hole in rust.hole_updates(id) {
        answer.line("hole");
        answer.field(id.id());
        answer.field(hole.value);
        answer.field(hole.checkpoint);
        answer.field(hole.position);
        answer.field(u8::from(hole.moved_lower));
        answer.field(u8::from(hole.moved_upper));
    }
    let initial = rust.get_initial_holes(id);
    if !initial.is_empty() {
        answer.line("initial");
        answer.field(id.id());
        for value in initial {
            answer.field(value);
        }
    }
}
