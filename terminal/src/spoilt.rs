//! For tests: lines that are good, and lines that are nearly good.

/// Numbers in an order of no meaning, the same at each run.
pub struct Dice(pub u64);

impl Dice {
    pub fn below(&mut self, count: usize) -> usize {
        let next = self.0.wrapping_mul(6364136223846793005);
        self.0 = next.wrapping_add(1442695040888963407);
        (self.0 >> 33) as usize % count
    }
}

/// Good lines, so that pieces of them make lines that are nearly good.
pub const GOOD: [&str; 20] = [
    "10 IF @(A+3) AND 4 L=L-40",
    "20FORI=280TO310STEP10:L=300:X=40",
    "30 PRINT \"WAIT\",L-I,$(512+16*C);",
    "40 GO TO 100*B:GO SUB#1F",
    "GOSUB 300",
    "50 INPUT A,B:INPUT $512",
    "$528=$512",
    "60 $(A+1)=\"BERTA\":REM X",
    "70 DO:UNTIL NOT(A<=B)",
    "80 NEXTI:RETURN",
    "LIST 10",
    "NEW",
    "RUN",
    "CLEAR",
    "90 STAT=MOD(X/60,24)",
    "100 LET@A=H:LETSTAT=1",
    "110 IFA<>B THEN IF C>=D THEN END",
    "120 A=-B*C/D+E-F OR G",
    "130 PR TOP,STAT,@@A,NOT NOT 5",
    "140",
];

/// A good line in which bytes were dropped, put in or exchanged, or two parts of two lines.
pub fn spoilt(dice: &mut Dice) -> Vec<u8> {
    const PUT: &[u8] = b" :\"()=<>,;#@$-+*/0123459AEGINORTXYZa!.";
    let mut line = GOOD[dice.below(GOOD.len())].as_bytes().to_vec();
    if dice.below(3) == 0 {
        let other = GOOD[dice.below(GOOD.len())].as_bytes();
        line.truncate(dice.below(line.len() + 1));
        line.extend(&other[dice.below(other.len())..]);
    }
    for _ in 0..dice.below(3) {
        let at = dice.below(line.len() + 1);
        match dice.below(3) {
            0 if at < line.len() => drop(line.remove(at)),
            1 if at < line.len() => line[at] = PUT[dice.below(PUT.len())],
            _ => line.insert(at, PUT[dice.below(PUT.len())]),
        }
    }
    line
}
