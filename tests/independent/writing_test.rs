//! This implementation held against what document 02 says of writing (T-01): document 01's job byte by byte, buffers of every length, each refusal and
//! which of two is told, and on drawn contents and files what is said of all of them.

use crate::columns::{by_column, Columns};
use crate::draw_jobs::{self, documents_job, layout};
use crate::draw_writing;
use crate::plane::determinant;
use crate::reading::{read, Job, Refusal};
use crate::self_test::{job, Tests};
use crate::systems::{Row, B, D, R};
use crate::unexpanding::IDENTITIES;
use crate::writing::{contents_of, file_of, length, write, Contents};
use crate::writing_cases::{self, printed, printed_again, WritingCase, MOST};

pub fn writings(tests: &mut Tests) {
    documents_file(tests);
    buffers(tests);
    systems_refused(tests);
    matrices_and_words_refused(tests);
    order(tests);
    too_large_to_say(tests);
    written_again(tests);
    drawn_contents(tests);
    lines(tests);
}

/// The answer, and the buffer afterwards; before, no two neighbours in it are the same.
fn written(contents: &Contents, room: usize) -> (Result<usize, Refusal>, Vec<u8>) {
    let mut buffer = untouched(room);
    (write(contents, &mut buffer), buffer)
}

fn untouched(room: usize) -> Vec<u8> {
    (0..room).map(|place| (place * 7 + 3) as u8).collect()
}

/// With every buffer up to that length the refusal is this one, and no byte is written.
fn refused_up_to(longest: usize, contents: &Contents, number: u8, section: u8) -> bool {
    let told = |room| written(contents, room) == (Err(Refusal { number, section }), untouched(room));
    (0..=longest).all(told)
}

/// In a buffer that the file would just fill, in a longer one, and in shorter ones: the refusal is told before 14.
fn refused(contents: &Contents, number: u8, section: u8) -> bool {
    let needed = length(contents);
    [0, 1, needed - 1, needed, needed + 9].iter().all(|&room| written(contents, room) == (Err(Refusal { number, section }), untouched(room)))
}

/// "Each after its count (2 bytes, low byte first)", "rows of eight signed 16-bit numbers", "matrix (count 4, then a b c d as such numbers)".
fn documents_file(tests: &mut Tests) {
    let r = [
        4, 0, 1, 0, 0, 0, 1, 0, 1, 0, 0, 0, 1, 0, 1, 0, 1, 0, 1, 0, 1, 0, 0, 0, 1, 0, 1, 0, 1, 0, 1, 0, 0, 0, //
        1, 0, 255, 255, 0, 0, 1, 0, 1, 0, 0, 0, 1, 0, 255, 255, 1, 0, 0, 0, 255, 255, 1, 0, 255, 255, 1, 0, 0, 0, 1, 0,
    ];
    let file = [&r[..], &r, &[4, 0, 2, 0, 1, 0, 1, 0, 2, 0], &[3, 0, 0, 0, 1]].concat();
    tests.push(("the document's job, byte by byte", file.len() == 147 && written(&documents_contents(), 147) == (Ok(147), file)));
    let largest = job(&[R; 4].concat(), &[D; 4].concat(), [1000, -1000, 0, 1], &[255; 4096]);
    tests.push(("the largest file", written(&contents_of(&largest), 4624) == (Ok(4624), layout(&largest))));
    let smallest = job(&R, &D, [1, 0, 0, 1], &[]);
    tests.push(("an empty word", written(&contents_of(&smallest), 144) == (Ok(144), layout(&smallest))));
}

fn documents_contents() -> Contents {
    contents_of(&documents_job())
}

/// "Bytes past the file stay." "14, buffer too short, nothing written."
fn buffers(tests: &mut Tests) {
    tests.push(("every buffer that is too short", refused_up_to(146, &documents_contents(), 14, 0)));
    let file = layout(&documents_job());
    let fits = |room| written(&documents_contents(), room) == (Ok(147), [&file[..], &untouched(room)[147..]].concat());
    tests.push(("every buffer that is long enough", (147..=400).all(fits)));
}

fn with_input(input: Columns) -> Contents {
    let [_, output] = documents_contents().systems;
    Contents { systems: [input, output], ..documents_contents() }
}

fn with_output(output: Columns) -> Contents {
    let [input, _] = documents_contents().systems;
    Contents { systems: [input, output], ..documents_contents() }
}

/// R with a row more, which breaks one rule.
fn r_and(row: Row) -> Columns {
    by_column(&[&R[..], &[row]].concat())
}

fn systems_refused(tests: &mut Tests) {
    let counted = |count| Columns { count, ..by_column(&R) };
    let in_both = |system: Columns, number| refused(&with_input(system.clone()), number, 0) && refused(&with_output(system), number, 1);
    let no_counts = [0, 17, 18, 255, 256, 260, 65535, 65536 + 4, (1 << 32) + 4, 1 << 63, u64::MAX];
    tests.push(("3 for a system", no_counts.into_iter().all(|count| in_both(counted(count), 3))));
    tests.push(("6 for a system", [101, -101, 32767, -32768].into_iter().all(|n| in_both(r_and([1, 0, n, 1, 0, 1, 1, 1]), 6))));
    tests.push(("7 for a system", in_both(r_and([1, 0, 1, 0, 0, 1, 1, 1]), 7)));
    tests.push(("8 for a system", in_both(r_and([1, 0, 1, 1, 1, 1, 0, 1]), 8)));
    let not_lowest = [[2, 0, 2, 2, 0, 1, 1, 1], [1, 0, 1, 1, 0, 2, 1, 1], [1, 0, 1, 1, 0, 1, 3, 3]];
    tests.push(("9 for a system", not_lowest.into_iter().all(|row| in_both(r_and(row), 9))));
    tests.push(("10 for a system", in_both(by_column(&R[1..]), 10)));
    tests.push(("18 for a system", in_both(by_column(&IDENTITIES), 18)));
    tests.push(("a row of zeros counts", in_both(counted(5), 7)));
    let mut untidy = by_column(&R);
    untidy.runs.iter_mut().for_each(|run| run[4..].fill(-32768));
    let same = |contents: &Contents| written(contents, 147) == (Ok(147), layout(&documents_job()));
    tests.push(("unused places may hold anything", same(&with_input(untidy.clone())) && same(&with_output(untidy))));
}

fn matrices_and_words_refused(tests: &mut Tests) {
    let with_matrix = |matrix| Contents { matrix, ..documents_contents() };
    let with_entry = |place: usize, n: i128| {
        let mut matrix = [1000, 0, 0, 1000];
        matrix[place] = n;
        with_matrix(matrix)
    };
    let out = [1001, -1001, 32767, 32768, -32768, -32769, 65536, 65537, (1 << 32) + 1, i64::MAX as i128, i64::MIN as i128];
    tests.push(("6 for the matrix", (0..4).all(|place| out.iter().all(|&n| refused(&with_entry(place, n), 6, 2)))));
    tests.push(("11 for the matrix", [[1, 2, 2, 1], [1, 1, 1, 1], [0; 4], [-1000, 0, 0, 1000]].into_iter().all(|matrix| refused(&with_matrix(matrix), 11, 2))));
    tests.push(("entries at their limits", written(&with_matrix([1000, 1000, -1000, 1000]), 147).0 == Ok(147)));
    let with_word = |length| Contents { word: vec![1; length], ..documents_contents() };
    tests.push(("5 for the word", [4097, 4098, 8192, 65535, 65536, 65536 + 3].into_iter().all(|length| refused(&with_word(length), 5, 3))));
    tests.push(("a word of 4096", written(&with_word(4096), 4240).0 == Ok(4240)));
}

/// Of any two of the five things that are refused, the one that comes first in the file is told, and the buffer last.
fn order(tests: &mut Tests) {
    let parts: [(fn(&mut Contents), u8, u8); 4] = [
        (|contents| contents.systems[0] = by_column(&IDENTITIES), 18, 0),
        (|contents| contents.systems[1] = by_column(&R[1..]), 10, 1),
        (|contents| contents.matrix = [1, 1, 1, 1], 11, 2),
        (|contents| contents.word = vec![0; 4097], 5, 3),
    ];
    let first_is_told = |broken: u32| {
        let mut contents = documents_contents();
        (0..4).filter(|part| broken >> part & 1 == 1).for_each(|part| parts[part].0(&mut contents));
        let (_, number, section) = parts[broken.trailing_zeros() as usize];
        refused(&contents, number, section)
    };
    tests.push(("the first of several refusals is told", (1..16).all(first_is_told)));
    let both = Contents { matrix: [1001, 1001, 1001, 1001], ..documents_contents() };
    tests.push(("6 is told before 11", refused(&both, 6, 2)));
}

/// What two bytes cannot say is refused as the nearest is that they can say; here the contents are judged by themselves.
fn too_large_to_say(tests: &mut Tests) {
    let drawn = (1..=3000).map(|n| draw_writing::case(3, n).contents);
    tests.push(("the refusals are those of the contents", drawn.into_iter().all(|contents| read(&file_of(&contents)).err() == judged(&contents))));
}

fn judged(contents: &Contents) -> Option<Refusal> {
    let [input, output] = [0, 1].map(|k: usize| contents.systems[k].judge().err());
    let out = contents.matrix.iter().any(|&n| !(-1000..=1000).contains(&n)).then_some(6);
    let matrix = out.or((determinant(contents.matrix) <= 0).then_some(11));
    let word = (contents.word.len() > 4096).then_some(5);
    let told = [input, output, matrix, word].into_iter().zip(0..);
    told.filter_map(|(number, section)| number.map(|number| Refusal { number, section })).next()
}

/// "A file that reads is written again byte for byte."
fn written_again(tests: &mut Tests) {
    let files = (1..=600).map(|n| draw_jobs::case(4, n).0);
    let read: Vec<(Vec<u8>, Job)> = files.filter_map(|file| read(&file).ok().map(|job| (file, job))).collect();
    tests.push(("of drawn files many read", read.len() > 300));
    tests.push(("a file that reads is written again", read.iter().all(|(file, job)| written(&contents_of(job), file.len()) == (Ok(file.len()), file.clone()))));
    tests.push(("and printed so", read.iter().all(|(file, _)| printed_again(file) == format!("0 {0} {0}\n", file.len()))));
    tests.push(("a refused file has no such line", printed_again(&layout(&documents_job())[1..]).is_empty()));
}

/// "What is written reads back as the same job, unused digits as 0."
fn drawn_contents(tests: &mut Tests) {
    let drawn: Vec<WritingCase> = (1..=3000).map(|n| draw_writing::case(2, n)).collect();
    let good: Vec<&Contents> = drawn.iter().map(|case| &case.contents).filter(|contents| judged(contents).is_none()).collect();
    tests.push(("of drawn contents many are written", good.len() > 1500));
    tests.push(("what is written reads back", good.iter().all(|contents| reads_back(contents))));
    let untidy = |contents: &&&Contents| contents.systems.iter().any(|system| *system != by_column(&system.rows()));
    tests.push(("in many of them unused places are not 0", good.iter().filter(untidy).count() > 1000));
    let told: Vec<Refusal> = drawn.iter().filter_map(|case| write(&case.contents, &mut untouched(case.room)).err()).collect();
    let of_systems = [3, 6, 7, 8, 9, 10, 18].into_iter().flat_map(|number| [(number, 0), (number, 1)]);
    let all = of_systems.chain([(6, 2), (11, 2), (5, 3), (14, 0)]);
    let often = |(number, section)| told.iter().filter(|refusal| **refusal == Refusal { number, section }).count() > 4;
    tests.push(("each refusal is drawn in each section", all.into_iter().all(often)));
}

fn reads_back(contents: &Contents) -> bool {
    let (answer, buffer) = written(contents, MOST);
    let Ok(length) = answer else { return false };
    let Ok(job) = read(&buffer[..length]) else { return false };
    let tidy = contents.systems.clone().map(|system| by_column(&system.rows()));
    contents_of(&job) == Contents { systems: tidy, ..contents.clone() } && buffer[..length] == layout(&job) && buffer[length..] == untouched(MOST)[length..]
}

/// What is printed for a case, and its bytes.
fn lines(tests: &mut Tests) {
    let with_room = |room| WritingCase { names: [b'R', b'S'], contents: documents_contents(), room };
    tests.push(("14, printed", [3, 0].map(|room| printed(&with_room(room))) == ["14 0 0 | 238 238 238\n", "14 0 0 |\n"]));
    let text = printed(&with_room(148));
    tests.push(("a file, printed", text.starts_with("0 0 147 | 4 0 1 0 0 0 ") && text.ends_with(" 4 0 2 0 1 0 1 0 2 0 3 0 0 0 1 238\n")));
    let refused = WritingCase { contents: Contents { matrix: [0, 0, 0, -2], ..documents_contents() }, ..with_room(1) };
    tests.push(("a refusal, printed", printed(&refused) == "11 2 0 | 238\n"));
    let bytes = writing_cases::layout(&refused);
    // Behind the output system's name and count the first numbers of R's four digits, and twelve places without a digit; then the matrix, word and buffer.
    let begins = bytes[..19] == [82, 83, 4, 0, 0, 0, 0, 0, 0, 0, 1, 0, 1, 0, 1, 0, 1, 0, 0];
    let ends = bytes[266..] == [&[0; 24][..], &[254, 255, 255, 255, 255, 255, 255, 255], &[3, 0, 0, 0, 1], &[1, 0]].concat();
    tests.push(("and its bytes", begins && ends && writing_cases::read(&bytes) == Some(refused)));
    let again = |n| {
        let case = draw_writing::case(2, n);
        writing_cases::read(&writing_cases::layout(&case)) == Some(case)
    };
    tests.push(("the bytes of a case are read as that case", (1..=3000).all(again)));
    tests.push(("a job is printed as written again", printed_again(&layout(&job(&B, &B, [1, 0, 0, 1], &[1]))) == "0 273 273\n"));
}
