//! Demand 3 on an engine: a list of calls, and what striking out leaves of it, end alike.

use super::searches::is_search;
use crate::counts::Counts;
use crate::differences::{first_words, hex};
use crate::engine::{Answer, Engine};
use crate::inputs::calls::plain_call;
use crate::inputs::grounds::{self, Ground};
use crate::inputs::{malformed, mixed_calls};
use crate::model::folding::compared_key;
use crate::model::keys::orphan_counts;
use crate::model::schema::{Key, Match, Schema};
use crate::model::{strike, Model};
use crate::random::Random;

type Outcome = Result<(), String>;

pub struct Replay {
    model: Model,
    pub lists: usize,
    pub calls: usize,
    /// How many calls were left by striking out.
    pub left: usize,
    /// How many of both were of kinds 10 and 11.
    pub searches: usize,
    pub searches_left: usize,
    /// How many lists ended inside a transaction.
    pub open: usize,
    /// How many accepted calls wrote half-filled keys of MATCH FULL, and how many were left.
    pub half_filling: usize,
    pub half_filling_left: usize,
    /// How many lists were on schemas with broken keys, how many calls were refused by 23, and how
    /// many entered rows into the parent table of a broken key and were left, or not.
    pub half_drawn: usize,
    pub refused_by_23: usize,
    pub parents_entered: usize,
    pub parents_left: usize,
    /// How many lists were on schemas with folded columns, and how many accepted calls spelled a row
    /// otherwise in a folded column and were left, or not.
    pub folded: usize,
    pub respelling: usize,
    pub respelling_left: usize,
    /// How many lists were on schemas with windowed keys, how often calls had each code there, and how
    /// many accepted calls moved a window and were left, or not.
    pub windowed: usize,
    pub codes_of_windowed: Counts<i64>,
    pub moving: usize,
    pub moving_left: usize,
}

/// A list of calls and the answers to it.
struct Run {
    calls: Vec<Vec<i64>>,
    codes: Vec<i64>,
    answers: Vec<Answer>,
    area: Vec<i64>,
    /// The numbers of the calls that spelled a row otherwise, and of those that moved a window.
    respelling: Vec<usize>,
    moving: Vec<usize>,
}

impl Replay {
    pub fn new() -> Replay {
        Replay {
            model: Model::of_the_paper(),
            lists: 0,
            calls: 0,
            left: 0,
            searches: 0,
            searches_left: 0,
            open: 0,
            half_filling: 0,
            half_filling_left: 0,
            half_drawn: 0,
            refused_by_23: 0,
            parents_entered: 0,
            parents_left: 0,
            folded: 0,
            respelling: 0,
            respelling_left: 0,
            windowed: 0,
            codes_of_windowed: Counts::default(),
            moving: 0,
            moving_left: 0,
        }
    }

    /// One list of 20 to 200 calls from a fresh area.
    pub fn trial(&mut self, engine: &dyn Engine, r: &mut Random) -> Outcome {
        let ground = if r.once_in(10) {
            grounds::chain(r)
        } else {
            grounds::collisions(r)
        };
        let run = self.first_run(engine, r, &ground)?;
        let left = strike::left(&run.calls, &run.codes);
        self.lists += 1;
        self.calls += run.calls.len();
        self.left += left.len();
        self.searches += run.calls.iter().filter(|call| is_search(call)).count();
        let searches_left = left.iter().filter(|&&number| is_search(&run.calls[number]));
        self.searches_left += searches_left.count();
        self.open += usize::from(run.area[0] != 0);
        self.count_half_filling(&ground.schema, &run, &left);
        self.count_broken(&ground.schema, &run, &left);
        self.folded += usize::from(ground.schema.any_folded());
        self.respelling += run.respelling.len();
        let respelling_left = left.iter().filter(|n| run.respelling.contains(n));
        self.respelling_left += respelling_left.count();
        if ground.schema.any_windowed() {
            self.count_windowed(&run, &left);
        }
        second_run(engine, &ground, &run, &left)
    }

    fn count_windowed(&mut self, run: &Run, left: &[usize]) {
        self.windowed += 1;
        let codes = run.codes.iter();
        codes.for_each(|&code| self.codes_of_windowed.add(code));
        self.moving += run.moving.len();
        self.moving_left += left.iter().filter(|n| run.moving.contains(n)).count();
    }

    fn count_half_filling(&mut self, schema: &Schema, run: &Run, left: &[usize]) {
        let accepted = (0..run.calls.len()).filter(|&number| run.codes[number] == 0);
        let half_filling = |number: &usize| half_fills(schema, &run.calls[*number]);
        self.half_filling += accepted.filter(half_filling).count();
        self.half_filling_left += left.iter().copied().filter(half_filling).count();
    }

    fn count_broken(&mut self, schema: &Schema, run: &Run, left: &[usize]) {
        let enters = |number: &usize| enters_parent(schema, &run.calls[*number]);
        let accepted = (0..run.calls.len()).filter(|&number| run.codes[number] == 0);
        self.half_drawn += usize::from(schema.any_broken());
        self.refused_by_23 += run.codes.iter().filter(|&&code| code == 23).count();
        self.parents_entered += accepted.filter(enters).count();
        self.parents_left += left.iter().copied().filter(enters).count();
    }

    /// Runs a random list. The codes are those of the model, which runs beside; after each call the
    /// kept numbers and the commit sent next are held to the orphans counted.
    fn first_run(
        &self,
        engine: &dyn Engine,
        r: &mut Random,
        ground: &Ground,
    ) -> Result<Run, String> {
        let (mut area, mut beside) = (made_fresh(engine, ground)?, ground.fresh());
        let (mut calls, mut codes, mut answers) = (Vec::new(), Vec::new(), Vec::new());
        let (mut respelling, mut moving) = (Vec::new(), Vec::new());
        for _ in 0..r.between(20, 200) {
            let mut call = mixed_calls::any(r, ground, &beside);
            if r.once_in(25) {
                call = malformed::spoiled(r, ground, call);
            }
            answers.push(engine.call(&ground.bytes, &mut area, &call));
            let before = beside.clone();
            let code = self.model.call(&ground.bytes, &mut beside, &call).code;
            if code == 0 && respells(ground, &before, &beside) {
                respelling.push(calls.len());
            }
            if code == 0 && moves_window(ground, &before, &beside) {
                moving.push(calls.len());
            }
            codes.push(code);
            calls.push(call);
            self.counted(engine, ground, &area)
                .map_err(|why| told(ground, &calls, &why))?;
        }
        let mut pairs = answers.iter().zip(&codes);
        if let Some(at) = pairs.position(|(answer, &code)| answer.code != code) {
            let why = format!("call {}: answer {}, code {}", at, answers[at], codes[at]);
            return Err(told(ground, &calls, &why));
        }
        Ok(Run {
            calls,
            codes,
            answers,
            area,
            respelling,
            moving,
        })
    }

    /// Kept numbers are those counted from the rows; a commit sent next passes only if all are 0.
    fn counted(&self, engine: &dyn Engine, ground: &Ground, words: &[i64]) -> Outcome {
        let area = ground.area(words);
        let mut counts = orphan_counts(&self.model.rules, &area);
        counts.resize(32, 0);
        if area.kept() != counts {
            return Err(format!("kept {:?}, counted {:?}", area.kept(), counts));
        }
        let code = match (area.in_transaction(), counts.iter().all(|&n| n == 0)) {
            (false, _) => 12,
            (true, false) => 21,
            (true, true) => 0,
        };
        commit_next(engine, ground, words, plain_call(9, 0), code)?;
        if words[1] == 2 {
            commit_next(engine, ground, words, plain_call(6, 1), code)?;
        }
        Ok(())
    }
}

/// Whether an accepted call is an insert or an update of a row with a half-filled child key of MATCH
/// FULL.
fn half_fills(schema: &Schema, call: &[i64]) -> bool {
    let is_half_filled = |key: &Key| {
        let columns = key.child_columns.iter();
        let nulls = columns
            .filter(|&&column| call[3] >> column & 1 == 1)
            .count();
        (1..key.child_columns.len()).contains(&nulls)
    };
    let of_table = |key: &&Key| key.child as i64 == call[1] && key.matching == Match::Full;
    let mut keys = schema.keys.iter().filter(of_table);
    matches!(call[0], 1 | 2) && keys.any(is_half_filled)
}

/// Whether a live row comes to hold another spelling of what it held in a folded column.
fn respells(ground: &Ground, before: &[i64], after: &[i64]) -> bool {
    if !ground.schema.any_folded() {
        return false;
    }
    let [before, after] = [before, after].map(|words| ground.area(words));
    let mut tables = ground.schema.tables.iter().enumerate();
    tables.any(|(number, table)| {
        let mut rows = before.live_rows(number).into_iter();
        rows.any(|(row, old)| {
            let new = after.row(number, row).unwrap_or_default();
            let equal = compared_key(&table.marks, &old) == compared_key(&table.marks, &new);
            equal && old != new
        })
    })
}

/// Whether a live row comes to have another window under a windowed key that is not broken.
fn moves_window(ground: &Ground, before: &[i64], after: &[i64]) -> bool {
    let keys = ground.schema.keys.iter();
    let mut keys = keys.filter(|key| key.window.is_some() && !key.broken);
    keys.any(|key| {
        let [before, after] = [before, after].map(|words| ground.area(words));
        let mut rows = before.live_rows(key.parent).into_iter();
        rows.any(|(number, old)| {
            let new = after.row(key.parent, number);
            new.map_or(false, |new| key.parent_key(&new) != key.parent_key(&old))
        })
    })
}

/// Whether an accepted call enters a row into the parent table of a broken key.
fn enters_parent(schema: &Schema, call: &[i64]) -> bool {
    let is_parent = |key: &Key| key.broken && key.parent as i64 == call[1];
    call[0] == 1 && schema.keys.iter().any(is_parent)
}

/// Sends a commit on a copy of the area. Accepted, it leaves no transaction; refused, it writes
/// nothing.
fn commit_next(
    engine: &dyn Engine,
    ground: &Ground,
    words: &[i64],
    commit: Vec<i64>,
    code: i64,
) -> Outcome {
    let mut after = words.to_vec();
    let answer = engine.call(&ground.bytes, &mut after, &commit);
    let ended = if code == 0 {
        after[..3] == [0, 0, 0]
    } else {
        after == words
    };
    if answer != Answer::refused(code) || !ended {
        return Err(format!(
            "commit sent next: answer {}, code {}",
            answer, code
        ));
    }
    Ok(())
}

fn made_fresh(engine: &dyn Engine, ground: &Ground) -> Result<Vec<i64>, String> {
    let mut area = vec![7; ground.schema.area_words()];
    match engine.make_fresh(&ground.bytes, &mut area) {
        0 => Ok(area),
        code => Err(format!("making fresh is refused by {}", code)),
    }
}

/// Runs the calls that are left from another fresh area: the same answers, and every word.
fn second_run(engine: &dyn Engine, ground: &Ground, run: &Run, left: &[usize]) -> Outcome {
    let mut area = made_fresh(engine, ground)?;
    for &number in left {
        let answer = engine.call(&ground.bytes, &mut area, &run.calls[number]);
        if answer != run.answers[number] {
            let why = format!("call {}: {}, then {}", number, run.answers[number], answer);
            return Err(told(ground, &run.calls, &why));
        }
    }
    if area != run.area {
        let words = first_words(&area, &run.area);
        let why = format!("second run, with the first as model: {}", words);
        return Err(told(ground, &run.calls, &why));
    }
    Ok(())
}

fn told(ground: &Ground, calls: &[Vec<i64>], why: &str) -> String {
    format!("{}; schema {}; calls {:?}", why, hex(&ground.bytes), calls)
}
