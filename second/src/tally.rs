//! How often each number, call and kind of decision occurred among the inputs that were compared, and what did not.

use crate::calls::{self, CALLS};
use crate::floor::{Floor, SLOW};
use crate::lookahead::Window;
use crate::make::weaving::{weaves, Woven};
use crate::make::Program;
use crate::output::Output;
use crate::table_file::LONGEST;
use crate::{aisle, keep_depth};

/// The greatest number that is answered, and those below it that nothing answers.
const LAST_NUMBER: usize = 28;
const UNUSED: [usize; 5] = [15, 23, 24, 25, 26];

/// How often each number, call and kind of decision occurred.
#[derive(Default)]
pub struct Tally {
    numbers: [u64; LAST_NUMBER + 1],
    calls: [u64; PLACES],
    malformed: u64,
    aisle: u64,
    /// How many of all had slow cells, and how many of these were accepted.
    pub slow: u64,
    slow_calls: [u64; PLACES],
    slow_aisle: u64,
    /// How many calls named several goals, and how many of these were accepted.
    pub several: u64,
    several_calls: [u64; PLACES],
    /// How many calls were refused by 27.
    by_27: [u64; PLACES],
    /// How many table files of each edition were read, and how many were refused by 28.
    pub read: [u64; 2],
    pub by_28: [u64; 2],
    /// How many files were renewed by call 12 and by the program, and how many the program refused.
    renewed_calls: Renewed,
    renewed: Renewed,
    renew_refused: u64,
    /// How many of the inputs that it renewed were longer than the longest table, and how many ended with that table.
    renewed_long: u64,
    renewed_longest: u64,
    /// How often each of `OF_CALL_16` and of `OF_KEEP_DEPTH` occurred.
    kept_calls: [u64; OF_CALL_16.len()],
    kept: [u64; OF_KEEP_DEPTH.len()],
    /// How many of the inputs that were copied were longer than what is read at once.
    kept_long: u64,
    /// How many had a leg where the lowest cells alone would weave, gone forward and gone back.
    pub woven_decisions: [u64; 2],
    pub woven_aisle: [u64; 2],
    /// Arrived, forward, backed out, stayed, refused.
    decisions: [u64; 5],
    cuts: u64,
    refused_on_backing_out: u64,
}

/// How many files of each edition were renewed, without bytes ahead and with them.
type Renewed = [[u64; 2]; 2];

/// What a line can come to in call 16, and a list of lines in `keep_depth`.
const OF_CALL_16: [&str; 4] = ["copied as it stood", "given a depth", "refused by 3", "refused by 17"];
const OF_KEEP_DEPTH: [&str; 5] =
    ["empty", "copied as they stood", "given depths", "refused at line 1", "refused at a later line"];

/// One more than the greatest number of a call.
const PLACES: usize = CALLS[CALLS.len() - 1] + 1;

fn name_of(call: usize) -> &'static str {
    match call {
        1 => "open",
        2 => "decide",
        3 => "trial",
        4 => "run",
        5 => "read floor text",
        6 => "write table file",
        7 => "read table file",
        8 => "find records",
        9 => "check trailer",
        10 => "opening table",
        11 => "write floor text",
        12 => "renew a table file",
        _ => "line with its depth",
    }
}

/// How many numbers stand ahead of a call's goals, its own number included, and how many between them and the floor; none
/// where it takes no goals.
fn numbers_around_goals(call: usize) -> Option<(usize, usize)> {
    match call {
        1 | 3 => Some((4, 4)),
        2 => Some((6, 5)),
        4 => Some((4, 5)),
        6 | 7 | 10 => Some((3, 1)),
        _ => None,
    }
}

/// The list that begins at a place, and what comes after it.
fn list_at(asked: &[u64], place: usize) -> (&[u64], &[u64]) {
    asked[place + 1..].split_at(asked[place] as usize)
}

/// The goals among a call's numbers and what comes after them; none where it takes no goals.
fn goals(asked: &[u64]) -> Option<(&[u64], &[u64])> {
    let (ahead, _) = numbers_around_goals(asked[0] as usize)?;
    Some(list_at(asked, ahead))
}

/// The floor's bytes among a call's numbers and what comes after them; none where it takes no floor.
fn floor_bytes(asked: &[u64]) -> Option<(&[u64], &[u64])> {
    if asked[0] == 11 {
        return Some(list_at(asked, 3));
    }
    let (_, between) = numbers_around_goals(asked[0] as usize)?;
    Some(list_at(goals(asked)?.1, between))
}

/// Of a file whose trailer holds: 0 for edition 1 and 1 for edition 2, and whether bytes stand ahead of its first record.
fn kind_of_file(file: &[u8]) -> (usize, usize) {
    let ending = &file[file.len() - 11..];
    let back = u32::from_be_bytes([ending[3], ending[4], ending[5], ending[6]]);
    (usize::from(ending[0]) - 1, usize::from((back as usize) < file.len()))
}

/// A list as the bytes that it tells of.
fn bytes_of(list: &[u64]) -> Vec<u8> {
    list.iter().map(|&byte| byte as u8).collect()
}

impl Tally {
    pub fn add(&mut self, program: Program, input: &[u8], output: &Output) {
        match program {
            Program::Aisle => self.add_aisle(input, &output.out),
            Program::Calls => self.add_call(input, &output.out),
            Program::Renew => self.add_renew(input, output),
            Program::KeepDepth => self.add_keep_depth(input, output),
        }
    }

    fn add_number(&mut self, number: u64) {
        if let Some(count) = self.numbers.get_mut(number as usize) {
            *count += 1;
        }
    }

    fn add_aisle(&mut self, input: &[u8], output: &[u8]) {
        self.aisle += 1;
        let text = String::from_utf8_lossy(output);
        let mut words = text.split_ascii_whitespace();
        let number = if words.next() == Some("refused") { words.next() } else { Some("0") };
        let number = number.and_then(|number| number.parse().ok()).unwrap_or(u64::MAX);
        self.add_number(number);
        let slow = input.contains(&b'S');
        self.slow += u64::from(slow);
        self.slow_aisle += u64::from(slow && number == 0);
        if slow && number == 0 {
            let mut woven = Woven::default();
            aisle::show_legs(input, &mut |leg| woven.note(leg));
            self.woven_aisle[0] += u64::from(woven.forward);
            self.woven_aisle[1] += u64::from(woven.back);
        }
    }

    fn add_call(&mut self, input: &[u8], output: &[u8]) {
        if output == b"malformed\n" {
            self.malformed += 1;
            return;
        }
        let (Some(asked), Some(answered)) = (calls::numbers(input), leading_numbers(output)) else { return };
        let call = asked[0] as usize;
        self.calls[call] += 1;
        let number = match call {
            2 => answered[1],
            // The finder answers no number.
            8 => return,
            _ => answered[0],
        };
        self.add_number(number);
        if call == 2 {
            self.add_decision(&asked, &answered);
        }
        let slow = match floor_bytes(&asked) {
            Some((bytes, _)) => bytes.contains(&u64::from(SLOW)),
            None => call == 5 && list_at(&asked, 1).0.contains(&u64::from(b'S')),
        };
        self.slow += u64::from(slow);
        self.slow_calls[call] += u64::from(slow && number == 0);
        let several = goals(&asked).is_some_and(|(goals, _)| goals.len() > 1);
        self.several += u64::from(several);
        self.several_calls[call] += u64::from(several && number == 0);
        self.by_27[call] += u64::from(number == 27);
        self.add_file_or_line(&asked, number, &answered);
    }

    /// What became of the file of call 7 or 12, or of the line of call 16.
    fn add_file_or_line(&mut self, asked: &[u64], number: u64, answered: &[u64]) {
        match (asked[0], number) {
            (7, 0 | 28) => {
                let Some((_, rest)) = floor_bytes(asked) else { return };
                let (edition, _) = kind_of_file(&bytes_of(list_at(rest, 0).0));
                let counts = if number == 0 { &mut self.read } else { &mut self.by_28 };
                counts[edition] += 1;
            }
            (12, 0) => {
                let (edition, ahead) = kind_of_file(&bytes_of(list_at(asked, 1).0));
                self.renewed_calls[edition][ahead] += 1;
            }
            // In the order of `OF_CALL_16`.
            (16, 0) => self.kept_calls[usize::from(answered[3] > asked[1])] += 1,
            (16, 3) => self.kept_calls[2] += 1,
            (16, _) => self.kept_calls[3] += 1,
            _ => {}
        }
    }

    fn add_renew(&mut self, input: &[u8], output: &Output) {
        if output.err.is_empty() {
            let (edition, ahead) = kind_of_file(input);
            self.renewed[edition][ahead] += 1;
            self.renewed_long += u64::from(input.len() > LONGEST);
            self.renewed_longest += u64::from(edition == 1 && output.out.len() == LONGEST);
            self.add_number(0);
        } else {
            self.renew_refused += 1;
            self.add_number(13);
        }
    }

    fn add_keep_depth(&mut self, input: &[u8], output: &Output) {
        let what = match output.err.as_slice() {
            b"" if input.is_empty() => 0,
            b"" => 1 + usize::from(output.out != input),
            b"refused 3 1\n" => 3,
            _ => 4,
        };
        self.kept[what] += 1;
        let refused = what > 2;
        self.kept_long += u64::from(!refused && input.len() > keep_depth::PART);
        self.add_number(if refused { 3 } else { 0 });
    }

    fn add_decision(&mut self, asked: &[u64], answered: &[u64]) {
        let kind = answered[0];
        self.decisions[kind as usize] += 1;
        let (length_before, length_after) = (asked[5], answered[9]);
        if kind == 1 && length_after <= length_before {
            self.cuts += 1;
        }
        let (current, target) = (asked[3] as usize, answered[4] as usize);
        match kind {
            1 => self.woven_decisions[0] += u64::from(leg_weaves(asked, current, target)),
            2 => self.woven_decisions[1] += u64::from(leg_weaves(asked, target, current)),
            _ => {}
        }
        // Behind the goals come depth, p, q and quota.
        let quota_at = 6 + asked[6] as usize + 4;
        let (u, q, quota) = (asked[4], asked[quota_at - 1], asked[quota_at]);
        if answered[1] == 8 && u <= q * quota {
            // With the largest quota nothing backs out: if the same call is then accepted, only that part was at fault.
            let mut words: Vec<String> = asked.iter().map(u64::to_string).collect();
            words[quota_at] = "1000000".into();
            let output = calls::answer(words.join(" ").as_bytes());
            self.refused_on_backing_out += u64::from(!output.starts_with(b"4 "));
        }
    }

    /// What did not occur of all that is wanted.
    pub fn missing(&self) -> Vec<String> {
        let used = |number: &usize| !UNUSED.contains(number);
        let numbers = (0..self.numbers.len()).filter(used).filter(|&number| self.numbers[number] == 0);
        let mut missing: Vec<String> = numbers.map(|number| format!("number {number}")).collect();
        let wanted = [self.of_calls(), self.of_files(), self.of_lines(), self.of_slow_cells()].concat();
        missing.extend(wanted.into_iter().filter(|&(count, _)| count == 0).map(|(_, words)| words));
        missing
    }

    /// Calls, those with slow cells or several goals that are accepted, and those with goals that are refused by 27.
    fn of_calls(&self) -> Vec<(u64, String)> {
        let mut wanted = Vec::new();
        for call in CALLS {
            let mut want =
                |of: &[u64; PLACES], words: &str| wanted.push((of[call], format!("call {call}{words}")));
            let has_goals = numbers_around_goals(call).is_some();
            want(&self.calls, "");
            if has_goals || call == 5 || call == 11 {
                want(&self.slow_calls, " with slow cells");
            }
            if has_goals {
                want(&self.several_calls, " with several goals");
                want(&self.by_27, " refused by 27");
            }
        }
        wanted
    }

    /// Editions read, refused by 28 and renewed, and what `renew` made of long inputs.
    fn of_files(&self) -> Vec<(u64, String)> {
        let mut wanted = vec![
            (self.renew_refused, "renew refused".into()),
            (self.renewed_long, "renew of more than the longest table".into()),
            (self.renewed_longest, "renew of the longest table".into()),
        ];
        for edition in [1, 2] {
            let mut want =
                |count, words: &str| wanted.push((count, format!("a file of edition {edition} {words}")));
            want(self.read[edition - 1], "read");
            want(self.by_28[edition - 1], "refused by 28");
            for (whose, renewed) in [("call 12", self.renewed_calls), ("renew", self.renewed)] {
                let [whole, after_older] = renewed[edition - 1];
                want(whole, &format!("renewed by {whose}"));
                want(after_older, &format!("with bytes ahead renewed by {whose}"));
            }
        }
        wanted
    }

    /// What call 16 and `keep_depth` made of lines.
    fn of_lines(&self) -> Vec<(u64, String)> {
        let by_call = self.kept_calls.iter().zip(OF_CALL_16);
        let by_program = self.kept.iter().zip(OF_KEEP_DEPTH);
        let mut wanted = vec![(self.kept_long, "lines of keep_depth, more than are read at once".into())];
        wanted.extend(by_call.map(|(&count, words)| (count, format!("a line of call 16 {words}"))));
        wanted.extend(by_program.map(|(&count, words)| (count, format!("lines of keep_depth {words}"))));
        wanted
    }

    /// `aisle` with slow cells, and legs that the lowest cells alone would make longer.
    fn of_slow_cells(&self) -> Vec<(u64, String)> {
        let mut wanted = vec![(self.slow_aisle, "aisle with slow cells".into())];
        for (whose, woven) in [("decide", self.woven_decisions), ("aisle", self.woven_aisle)] {
            for (way, count) in ["forward", "backed out"].iter().zip(woven) {
                wanted.push((count, format!("{whose} {way} where the lowest cells alone weave")));
            }
        }
        wanted
    }

    pub fn print(&self) {
        println!("number  answered");
        for (number, count) in self.numbers.iter().enumerate().filter(|(number, _)| !UNUSED.contains(number))
        {
            println!("{number:6}  {count}");
        }
        self.print_calls_and_programs();
        println!("slow cells in {} of all, several goals in {}", self.slow, self.several);
        self.print_files();
        self.print_lines();
        let [arrived, forward, backed_out, stayed, refused] = self.decisions;
        let (cuts, by_8) = (self.cuts, self.refused_on_backing_out);
        print!("decisions: {arrived} arrived, {forward} forward ({cuts} cut the path), {backed_out} backed out, ");
        println!("{stayed} stayed, {refused} refused ({by_8} by the backing-out part of 8)");
        let ([forward, back], [aisle_forward, aisle_back]) = (self.woven_decisions, self.woven_aisle);
        print!("where the lowest cells alone weave: decide {forward} forward, {back} backed out; ");
        println!("aisle {aisle_forward} forward, {aisle_back} backed out");
    }

    fn print_calls_and_programs(&self) {
        println!(
            "call                      made  accepted with slow cells  with several goals  refused by 27"
        );
        for call in CALLS {
            let [made, slow, several, by_27] =
                [self.calls, self.slow_calls, self.several_calls, self.by_27].map(|of| of[call]);
            println!("{call:2} {:19}  {made:6}  {slow:24}  {several:18}  {by_27:13}", name_of(call));
        }
        println!("   {:19}  {:6}", "malformed", self.malformed);
        println!("   {:19}  {:6}  {:24}", "aisle", self.aisle, self.slow_aisle);
        let renewed: u64 = self.renewed.concat().iter().sum();
        println!("   {:19}  {:6}", "renew", renewed + self.renew_refused);
        println!("   {:19}  {:6}", "keep_depth", self.kept.iter().sum::<u64>());
    }

    fn print_files(&self) {
        for (edition, at) in [(1, 0), (2, 1)] {
            let (read, by_28) = (self.read[at], self.by_28[at]);
            let [[plain, after], [plain_renew, after_renew]] = [self.renewed_calls[at], self.renewed[at]];
            print!("table files of edition {edition}: {read} read, {by_28} refused by 28; renewed, and of these with bytes ahead: ");
            println!(
                "{} and {after} by call 12, {} and {after_renew} by renew",
                plain + after,
                plain_renew + after_renew
            );
        }
        let (long, longest) = (self.renewed_long, self.renewed_longest);
        print!(
            "renew refused {}; of what it renewed, {long} inputs were longer than the longest table, ",
            self.renew_refused
        );
        println!("and {longest} ended with that");
    }

    fn print_lines(&self) {
        let told = |counts: &[u64], words: &[&str]| {
            let told = counts.iter().zip(words).map(|(count, words)| format!("{count} {words}"));
            told.collect::<Vec<_>>().join(", ")
        };
        println!("lines of call 16: {}", told(&self.kept_calls, &OF_CALL_16));
        print!("lists of keep_depth: {}; ", told(&self.kept, &OF_KEEP_DEPTH));
        println!("of those not refused, {} were longer than what is read at once", self.kept_long);
    }
}

/// Whether the lowest cells alone would weave on a leg of an accepted decision.
fn leg_weaves(asked: &[u64], from: usize, end: usize) -> bool {
    let (Some((goals, settings)), Some((bytes, _))) = (goals(asked), floor_bytes(asked)) else {
        return false;
    };
    let goals: Vec<usize> = goals.iter().map(|&goal| goal as usize).collect();
    let bytes: Vec<u8> = bytes.iter().map(|&byte| byte as u8).collect();
    let floor = Floor::new(asked[1] as usize, asked[2] as usize, &bytes);
    let mut window = Window::new();
    window.look(&floor, from, &goals, settings[0] as usize) && weaves(&floor, &mut window, end)
}

/// The numbers that an output begins with. Outputs may be longer than inputs, so `calls::numbers` doesn't do.
fn leading_numbers(output: &[u8]) -> Option<Vec<u64>> {
    let text = std::str::from_utf8(output).ok()?;
    text.split_ascii_whitespace().take(10).map(|word| word.parse().ok()).collect()
}
