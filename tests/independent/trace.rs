//! The steps of a job's run as a table: the state before each step, the image X·W_held, and what the step does.

use crate::plane::{image, Interval};
use crate::reading::read;
use crate::running::{never_full, opened, step, ROOM};
use crate::systems::w;

pub fn table(file: &[u8]) -> String {
    let Ok(job) = read(file) else { return "the file is refused\n".to_string() };
    let mut run = opened(&job);
    let mut lines = "| step | X | held | X·W_held | what the step does |\n|---|---|---|---|---|\n".to_string();
    for number in 1.. {
        let [a, b, c, d] = run.x;
        let (held, moved) = match run.held {
            None => ("-".to_string(), "".to_string()),
            Some(digit) => {
                let Interval { left: [x0, x1], right: [y0, y1] } = image(run.x, w(&job.input[digit as usize]));
                (digit.to_string(), format!("{x0}/{x1} to {y0}/{y1}"))
            }
        };
        let before = (run.held, run.taken, run.written.len());
        let done = step(&job, never_full(&job, ROOM), &mut run);
        let does = match (done, before) {
            (Err(end), _) => format!("stops: end {end}"),
            (Ok(()), (_, taken, _)) if run.taken > taken => format!("takes {} in", job.word[taken]),
            (Ok(()), (_, _, written)) if run.written.len() > written => format!("gives {} out", run.written[written]),
            (Ok(()), (digit, _, _)) => format!("absorbs {}", digit.map_or("-".to_string(), |d| d.to_string())),
        };
        lines += &format!("| {number} | {a} {b} {c} {d} | {held} | {moved} | {does} |\n");
        if done.is_err() {
            break;
        }
    }
    lines
}
