//! The benchmark's listings.

/// Listing A of document 01.
pub const PRESS: &str = "P\t1\t1\nR\trr\t0\nW\t0\nS\t1\t#1\nA\t1\t#60000\t#0\nW\t1\nG\t0\n";
/// As many turns as input 0 says, three steps each.
pub const COUNTED: &str = "P\t1\t1\nR\trr\t1\nW\t0\nS\t2\t0\nU\t2\t0\nS\t2\t2 #1 -\nG\t2\n";
/// As many turns as input 0 says, four steps each.
pub const SUMS: &str = "P\t1\t1\nR\trr\t2\nW\t0\nS\t2\t#0\nU\t2 0 <\t0\nS\t3\t3 2 +\nS\t2\t2 #1 +\nG\t2\n";
/// As many turns as input 0 says, each a fork of two children that end at once: six steps.
pub const FORKS: &str =
    "P\t1\t1\nR\trr\t1\nW\t0\nS\t2\t0\nU\t2\t0\nF\t1 2\t2 1\nS\t2\t2 #1 -\nG\t2\nR\tv\t1\nE\nR\tr\t1\nE\n";
/// As many turns as input 0 says, each with a waiting write that replaces the last one: four steps.
pub const TIMERS: &str = "P\t1\t1\nR\trr\t2\nW\t0\nS\t2\t#0\nU\t2 0 <\t0\nA\t3\t#1000000000\t2\nS\t2\t2 #1 +\nG\t2\n";

/// Counts name 2 down by 1 (3 pieces); after it, terms that are 0 whatever the names hold.
const ONE_LESS: &str = "2 #1 -";
/// 8 pieces each.
const LESS_TERM: &str = " 3 4 < 4 3 < * +";
const MINUS_TERM: &str = " 3 4 - 4 3 - + +";
const TIMES_TERM: &str = " #5 2 * 2 #-5 * + +";
/// 8 pieces each, two of them divisions: by a literal, and by the number of turns.
const QUOTIENT_TERM: &str = " 3 #7 / 3 #7 / - +";
const REMAINDER_TERM: &str = " 2 0 % 2 0 % - +";
/// 4 pieces.
const WRITTEN_TERM: &str = " @1 #0 * +";

/// A loop of `U`, these `S` and `G`, as many turns as input 0 says. Names 2 to 4 are locals, 2 counts.
fn counting(sets: &str) -> String {
    format!("P\t1\t1\nR\trr\t3\nW\t0\nS\t2\t0\nU\t2\t0\n{sets}G\t2\n")
}

/// Two expressions in each turn, of 11 and 13 pieces: an expression has an odd number of them.
pub fn twelve_pieces() -> String {
    counting(&format!("S\t2\t{ONE_LESS}{LESS_TERM}\nS\t3\t3 2 + @0 + 4 #7 * - #5 < 2 *\n"))
}

/// One expression in each turn, of 73 pieces.
pub fn seventy_three_pieces() -> String {
    let terms = [LESS_TERM, MINUS_TERM, TIMES_TERM, LESS_TERM].concat().repeat(2);
    counting(&format!("S\t2\t{ONE_LESS}{terms}{WRITTEN_TERM} 4 +\n"))
}

/// As `twelve_pieces`, two divisions in each expression.
pub fn twelve_dividing() -> String {
    counting(&format!("S\t2\t{ONE_LESS}{QUOTIENT_TERM}\nS\t3\t3 2 + @0 + 4 #7 * - 0 % #5 /\n"))
}

/// As `seventy_three_pieces`, eight of them divisions.
pub fn seventy_three_dividing() -> String {
    let terms = [LESS_TERM, QUOTIENT_TERM, TIMES_TERM, REMAINDER_TERM].concat().repeat(2);
    counting(&format!("S\t2\t{ONE_LESS}{terms}{WRITTEN_TERM} 4 +\n"))
}

/// Main, 7 children and 56 grandchildren, which run the routine given.
pub fn sleepers(leaf: &str) -> String {
    let middle = format!("R\trr\t14\nF{}\nG\t0\n", "\t2 0 1".repeat(8));
    format!("P\t1\t1\nR\trr\t14\nF{}\nG\t0\n{middle}{leaf}", "\t1 0 1".repeat(7))
}

/// A table with all its instructions in use and nearly all its cells, a machine of 64 routines.
pub fn full() -> String {
    let sums = "S\t2\t2 #-2147483648 - 3 + 2 *\n".repeat(505);
    sleepers(&format!("R\trr\t14\nW\t0 1\nG\t0\n{sums}E\n"))
}

/// Fills a table up: after these routines come as many as make 64, and in the first of them as many
/// instructions and pieces as make 512 and 4,096.
fn filled(text: &str) -> String {
    let (routines, code): (Vec<&str>, Vec<&str>) = text.lines().skip(1).partition(|line| line.starts_with('R'));
    let pieces: usize = code.iter().map(|line| line.split(['\t', ' ']).count() - 1).sum();
    let more = 64 - routines.len();
    let lines = 512 - code.len() - more;
    // A line has two pieces and then pairs of an operand and an operator.
    let pairs = (4_096 - pieces) / 2 - lines;
    let sums: String =
        (0..lines).map(|j| format!("S\t0\t0{}\n", " #-2147483648 -".repeat((pairs + j) / lines))).collect();
    format!("{text}R\t-\t1\n{sums}E\n{}", "R\t-\t0\nE\n".repeat(more - 1))
}

/// A full table whose main waits at once.
pub fn full_table() -> String {
    filled("P\t1\t1\nR\trr\t0\nW\t0\nG\t0\n")
}

/// A full table, 64 live routines, and a waiting write a long time ahead on each of the 1,024 variables
/// that a listing can have at most: 16 of the environment and of each routine but main.
pub fn full_board() -> String {
    let writes: String = (0..16).map(|name| format!("A\t{name}\t#{}\t#1\n", 2_000_000_000 - 97 * name)).collect();
    let main = format!("R\t{}\t0\n{writes}F{}\nE\n", "r".repeat(16), "\t1".repeat(7));
    let middle = format!("R\t-\t16\n{writes}F{}\nE\n", "\t2".repeat(8));
    let leaf = format!("R\t-\t16\n{writes}W\t0 1 2 3\nG\t16\n");
    filled(&format!("P\t8\t8\n{main}{middle}{leaf}"))
}

/// 56 sleepers, of which input 0 wakes 8, input 1 16 and input 2 32.
pub fn grouped() -> String {
    let middles: String = [0, 1, 1, 2, 2, 2, 2].map(|input| format!("\t1 {input} 3")).concat();
    let leaves = "\t2 0 1".repeat(8);
    format!("P\t3\t1\nR\trrrr\t0\nF{middles}\nE\nR\trr\t0\nF{leaves}\nE\nR\trr\t0\nW\t0\nS\t1\t1 #1 +\nG\t0\n")
}

/// 48 sleepers with so many variables each, and a routine that writes its own variable one
/// millisecond after each instant, or never.
pub fn ticking(locals: usize, ticks: bool) -> String {
    let middles = "\t1 0 1".repeat(6);
    let leaves = "\t2 0 1".repeat(8);
    let tick = if ticks { "A\t2\t#1\t#1\n" } else { "" };
    let sleeper = format!("R\trr\t{locals}\nW\t0\nG\t0\n");
    format!("P\t1\t1\nR\trr\t0\nF{middles}\t3 0 1\nE\nR\trr\t0\nF{leaves}\nE\n{sleeper}R\trr\t1\n{tick}W\t2\nG\t0\n")
}

/// 49 sleepers of 14 variables each. So many variables of the last one, or of each, have a waiting
/// write a long time ahead; or the instructions that would put them there are passed over.
pub fn waiting(writes: usize, each: bool, put: bool) -> String {
    let first = if put { 1 } else { 1 + writes };
    let lines: String =
        (2..2 + writes).map(|name| format!("A\t{name}\t#{}\t#1\n", 2_000_000_000 - 97 * name)).collect();
    let waits = format!("R\trr\t14\nG\t{first}\n{lines}W\t0\nG\t{}\n", 1 + writes);
    let sleeper = if each { waits.clone() } else { "R\trr\t14\nW\t0\nG\t0\n".to_string() };
    let (middles, leaves) = ("\t1 0 1".repeat(6), "\t2 0 1".repeat(8));
    format!("P\t1\t1\nR\trr\t0\nF{middles}\t3 0 1\nE\nR\trr\t0\nF{leaves}\nE\n{sleeper}{waits}")
}
