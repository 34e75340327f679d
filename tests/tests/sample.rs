//! The documents' sample and the shapes of list that are refused.

use model::list::{output, MOST_LIST_BYTES, RECORD_BYTES};

const SAMPLE_OUTPUT: &str = "\
1 1 0 00000211111111111111111111111111111111ffffffff 00000222222222222222222222222222222222ffffffff
3 3 0
2 5 0 00000000
end 3
";

fn primary_of_cluster_2(record: &mut [u8], password: u8) {
    record[10] = 2;
    record[11..27].fill(password);
    record[27..31].fill(0xff);
}

fn sample() -> Vec<u8> {
    let mut list = vec![0; 3 * RECORD_BYTES];
    let (first, others) = list.split_at_mut(RECORD_BYTES);
    let (second, third) = others.split_at_mut(RECORD_BYTES);
    first[..5].copy_from_slice(&[3, 1, 0, 0, 2]);
    first[32..48].fill(0x11);
    first[48..].fill(0x22);
    second[..5].copy_from_slice(&[0, 5, 0, 0, 5]);
    primary_of_cluster_2(second, 0x11);
    third[..8].copy_from_slice(&[2, 3, 0, 0, 5, 0, 0, 4]);
    primary_of_cluster_2(third, 0x22);
    list
}

fn text(list: &[u8]) -> String {
    String::from_utf8(output(list)).unwrap()
}

#[test]
fn sample_byte_for_byte() {
    assert_eq!(text(&sample()), SAMPLE_OUTPUT);
}

#[test]
fn example_files_are_the_sample() {
    assert_eq!(include_bytes!("../../examples/sample.list").as_slice(), sample());
    assert_eq!(include_str!("../../examples/sample.out"), SAMPLE_OUTPUT);
}

#[test]
fn lengths() {
    assert_eq!(text(&[]), "end 0\n");
    for wrong in [1, 63, 65, 3 * 64 + 1, MOST_LIST_BYTES + 1, MOST_LIST_BYTES + 64, 100_000] {
        assert_eq!(text(&vec![0; wrong]), "list 18\n", "{wrong}");
    }
    assert_eq!(text(&vec![0; MOST_LIST_BYTES]), "1 0 3\nend 1\n");
}

#[test]
fn links() {
    // Beyond the last record, to itself, back to the first.
    for (link, refused) in [(4, "list 19\n"), (2, "list 20\n"), (1, "list 20\n")] {
        let mut list = sample();
        list[RECORD_BYTES] = link;
        assert_eq!(text(&list), refused);
    }
}

#[test]
fn records_that_are_not_reached_do_not_count() {
    let mut list = sample();
    list.extend([0xff; RECORD_BYTES]);
    assert_eq!(text(&list), SAMPLE_OUTPUT);
    list[0] = 0;
    assert!(text(&list).ends_with("\nend 1\n"));
}

#[test]
fn bad_code_is_printed_as_it_stands() {
    let mut list = sample();
    list[2 * RECORD_BYTES + 1] = 255;
    let expected = SAMPLE_OUTPUT.replace("3 3 0\n2 5 0 00000000", "3 255 3\n2 5 14");
    assert_eq!(text(&list), expected);
}

#[test]
fn a_longest_chain_runs_whole() {
    let mut list = vec![0; MOST_LIST_BYTES];
    for (at, record) in list.chunks_exact_mut(RECORD_BYTES).enumerate() {
        record[0] = if at == 254 { 0 } else { at as u8 + 2 };
    }
    assert!(text(&list).ends_with("255 0 3\nend 255\n"));
    list[254 * RECORD_BYTES] = 1;
    assert_eq!(text(&list), "list 20\n");
}

/// Whatever its other bytes are, a new cluster is one of eight segments: none of them is a width.
#[test]
fn a_list_makes_clusters_of_eight() {
    for unused in [0, 4, 8, 16, 255] {
        let mut list = sample();
        list[3] = unused;
        list[5..32].fill(unused);
        assert_eq!(text(&list), SAMPLE_OUTPUT, "{unused}");
    }
    for segment in 0..=255 {
        let mut list = sample();
        list[RECORD_BYTES + 4] = segment;
        list[2 * RECORD_BYTES + 4] = segment;
        let made = text(&list).contains("\n3 3 0\n2 5 0 00000000\n");
        let refused = text(&list).contains("\n3 3 3\n2 5 3\n");
        assert_eq!((made, refused), (segment < 8, segment >= 8), "{segment}");
    }
}
