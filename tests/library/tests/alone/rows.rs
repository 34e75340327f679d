//! What the comparison has to come to, written out call by call, is what the rows of the model's table say of each
//! call.

use crate::support::every::{every, Rest};
use crate::support::{new_cluster, reader};
use library::{question::Question, tally::allowed};
use model::table::{numbers_of, DONE};
use std::collections::BTreeSet;

#[test]
fn each_call_comes_to_all_of_its_rows() {
    let handle = reader().to_bytes();
    let rest = Rest { node: 0, segment: 5, mode: None };
    for call in every(&handle, &handle, rest).into_iter().chain([new_cluster(0, 2)]) {
        let rows = numbers_of(&call).into_iter().chain([DONE]);
        let code = Question::of(call).code();
        let numbers = allowed().filter(|(own, _)| *own == code).map(|(_, number)| number);
        assert_eq!(rows.collect::<BTreeSet<u8>>(), numbers.collect(), "call {code}");
    }
}
