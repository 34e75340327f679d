//! What is asked of the model by itself, asked of the library: the same tests with the library in the model's place.

#[path = "../../tests/calls.rs"]
mod calls;
#[path = "../../tests/copies.rs"]
mod copies;
#[path = "../../tests/cuts.rs"]
mod cuts;
#[path = "../../tests/damage.rs"]
mod damage;
#[path = "../../tests/fields.rs"]
mod fields;
#[path = "../../tests/freeze.rs"]
mod freeze;
#[path = "../../tests/join.rs"]
mod join;
#[path = "../../tests/join_numbers.rs"]
mod join_numbers;
#[path = "../../tests/length.rs"]
mod length;
#[path = "../../tests/looks.rs"]
mod looks;
#[path = "../../tests/nothing.rs"]
mod nothing;
#[path = "../../tests/orders.rs"]
mod orders;
#[path = "../../tests/refusals.rs"]
mod refusals;
#[path = "../../tests/register.rs"]
mod register;
#[path = "../../tests/renew.rs"]
mod renew;
#[path = "../../tests/writers.rs"]
mod writers;
