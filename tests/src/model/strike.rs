//! Striking out: which calls of a list are left, by the section of that name.

/// The numbers of the calls that are left, given each call's words and its code.
pub fn left(calls: &[Vec<i64>], codes: &[i64]) -> Vec<usize> {
    let mut line: Vec<usize> = Vec::new();
    let mut marks: Vec<usize> = Vec::new();
    for (number, call) in calls.iter().enumerate() {
        if codes[number] != 0 {
            continue;
        }
        let level = call[1] as usize;
        match call[0] {
            1..=3 | 10 | 11 => line.push(number),
            4 | 5 => {
                line.push(number);
                marks.push(line.len());
            }
            6 => {
                line.push(number);
                marks.truncate(level - 1);
            }
            7 => {
                line.truncate(marks[level - 1]);
                marks.truncate(level);
            }
            8 => {
                line.truncate(marks[0] - 1);
                marks.clear();
            }
            9 => {
                line.push(number);
                marks.clear();
            }
            _ => unreachable!("a call of another kind is refused"),
        }
    }
    line
}
