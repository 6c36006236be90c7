//! The parts of the comparison agree with each other on random files.

use compare::generated::{File, Kind, files};
use compare::listing::listing;
use compare::{LIST_WORDS, ROOM, action_writer, check, compile, from_tree, lower_file, read, text, to_tree};

#[test]
fn text_comes_back() {
    for File { name, bytes, .. } in files(Kind::Scripts, 7, 600) {
        assert_eq!(text::decode(&text::encode(&bytes)).as_deref(), Some(&bytes[..]), "{name}");
    }
}

#[test]
fn written_bytes_are_read_as_their_lists() {
    let mut compiled = 0;
    for File { name, bytes: file, .. } in files(Kind::Scripts, 11, 9_000) {
        if let Ok((lists, bytes)) = compile(&file, LIST_WORDS, usize::MAX) {
            assert_eq!(read(&bytes, LIST_WORDS), Ok(lists.by_place()), "{name}");
            compiled += 1;
        }
    }
    assert!(compiled > 3_000, "{compiled}");
}

#[test]
fn read_lists_write_to_the_same_bytes() {
    let mut good = 0;
    for File { name, bytes, .. } in files(Kind::Bytes, 12, 12_000) {
        match read(&bytes, LIST_WORDS) {
            Ok(lists) => {
                assert_eq!(action_writer::write(&lists, usize::MAX), Ok(bytes), "{name}");
                good += 1;
            }
            Err(number) => assert_eq!(number, 14),
        }
    }
    assert!(good > 3_000, "{good}");
}

#[test]
fn trees_come_back_from_the_script_writer() {
    let mut trees = 0;
    for File { name, bytes: file, .. } in files(Kind::Scripts, 13, 9_000) {
        let Ok(script) = check::check(&file) else { continue };
        let tree = to_tree::statements(&script);
        let written = from_tree::script_file(&tree);
        let again = check::check(&written).unwrap_or_else(|n| panic!("{name}: {n}"));
        assert_eq!(format!("{:?}", to_tree::statements(&again)), format!("{tree:?}"), "{name}");
        assert_eq!(compile(&written, LIST_WORDS, ROOM), compile(&file, LIST_WORDS, ROOM), "{name}");
        trees += 1;
    }
    assert!(trees > 3_000, "{trees}");
}

#[test]
fn short_list_slices_are_refused_first() {
    assert_eq!(compile(&[], LIST_WORDS - 1, ROOM).err(), Some(13));
    assert_eq!(read(&[], LIST_WORDS - 1).err(), Some(13));
    assert_eq!(compile(&[], LIST_WORDS, 0).err(), Some(1));
}

#[test]
fn what_is_out_is_written_as_its_kind() {
    use rascal::hir::{ExprKind, GetUrlMethod, StatementKind};
    let text = || Box::new(rascal::Spanned::of(ExprKind::GetTime));
    let url =
        ExprKind::GetUrl { target: text(), url: text(), load_variables: false, load_target: false, method: GetUrlMethod::None };
    let out = [
        StatementKind::InlinePCode("Play".to_string()),
        StatementKind::With { target: *text(), body: Box::new(StatementKind::Break) },
        StatementKind::Expr(rascal::Spanned::of(url)),
    ];
    for statement in out {
        assert_eq!(lower_file(&from_tree::script_file(&[statement])).err(), Some(3));
    }
}

#[test]
fn the_listing_of_document_01() {
    use rascal::hir::{ConstantKind, ExprKind, StatementKind};
    let b = rascal::Spanned::of(ExprKind::Constant(ConstantKind::Identifier("b".to_string())));
    let s3 = StatementKind::While { condition: b, body: Box::new(StatementKind::Block(vec![])) };
    let lists = lower_file(&from_tree::script_file(&[s3])).unwrap();
    let expected = "list 0 length 6\n0 ConstantPool 62\nloc0000:\n1 Push Constant 0\n2 GetVariable\n3 Not\n4 If loc0001\n5 Jump loc0000\nloc0001:\n";
    assert_eq!(listing(&lists), expected);
}

/// The example of docs/LISTS.md.
#[test]
fn the_list_slice_of_the_while_script() {
    use compare::{LIMITS, action_reader, list_slice, node};
    let file = node::file(&["b"], vec![node::while_loop(node::name(0), node::block(vec![]))]);
    let (lists, bytes) = compile(&file, LIST_WORDS, ROOM).unwrap();
    let entries =
        [[0x101, 1, 0], [0x99, 0, 0], [0x9D, 1, 0], [0x12, 0, 0], [0x1C, 0, 0], [0x118, 0, 0], [0x101, 0, 0], [0x88, 1, 0]];
    let mut words = vec![0; LIST_WORDS];
    words[..24].copy_from_slice(entries.as_flattened());
    (words[12_288], words[12_289], words[13_312]) = (2, 7, 8);
    let script = check::check(&file).ok().unwrap();
    assert_eq!(list_slice::compiled(LIMITS, &words, &script), Some(lists));
    words[16_383] = 1;
    assert_eq!(list_slice::compiled(LIMITS, &words, &script), None);

    let entries = [[0x99, 1, 0], [0x9D, 6, 0], [0x12, 0, 0], [0x1C, 0, 0], [0x118, 0, 0], [0x88, 0, 0]];
    let mut words = vec![0; LIST_WORDS];
    words[..18].copy_from_slice(entries.as_flattened());
    words[13_312] = 6;
    assert_eq!(list_slice::read(LIMITS, &words, &bytes), action_reader::read(LIMITS, &bytes));
}
