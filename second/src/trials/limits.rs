//! Both sides of every limit of the documents that a request of `keys ask` over the built-in sheet can meet, and the examples P1 to
//! P10. The limits of sheets are in `sheets`, those of lent lists in the tests of the calls for C.

/// A line for each side; a line's words are parted here by spaces.
pub fn requests() -> Vec<String> {
    let lines = |text: &str| text.lines().map(str::to_string).collect();
    let all: [Vec<String>; 4] = [lines(AIR), lines(GAS), walks(), lines(MARKING)];
    all.concat().iter().map(|line| line.trim().replace(' ', "\t")).collect()
}

/// P1 to P3; 200,000 to 2,000,000 mK; 200 to 2,000 K; ψ at its ends.
const AIR: &str = "\
air-heat 200000
air-heat 200500
air-psi 200500
air-heat 199999
air-heat 2000000
air-heat 2000001
air-psi 199999
air-psi 200000
air-psi 2000000
air-psi 2000001
air-cp 199
air-cp 200
air-cp 2000
air-cp 2001
air-temperature 95263999
air-temperature 95264000
air-temperature 133151000
air-temperature 133151001";

/// P4 to P10; A, c and h; lean; range; specific contents just below 15 °C, of ties and a mK beside them, and half a unit beside a
/// tie; a target at and beside the heat at both ends.
const GAS: &str = "\
burn 3 1 4
burn 2 1 4
burn 4000 0 11593
burn 4000 0 11594
burn 0 0 0
burn 1 0 0
burn 100000 0 0
burn 100001 0 0
burn 100000 -1 0
burn 100000 0 -1
burn 100000 50000 50000
burn 100000 50001 0
burn 100000 0 50001
temperature 1 0 0 478800000000
temperature 1 0 0 478802399999
temperature 1 0 0 478802400000
gas-heat 1 0 0 199999
gas-heat 1 0 0 200000
gas-heat 1 0 0 2000000
gas-heat 1 0 0 2000001
content 3 1 4 199999
content 3 1 4 200000
content 3 1 4 288160
content 3 1 4 2000000
content 3 1 4 2000001
specific-content 3 1 4 199999
specific-content 3 1 4 200000
specific-content 3 1 4 288160
specific-content 3 1 4 2000000
specific-content 3 1 4 2000001
specific-content 1 0 1 288159
specific-content 1 0 2 221121
specific-content 1 0 2 221122
specific-content 1 0 2 221123
specific-content 1 0 2 227869
specific-content 1 0 2 227870
specific-content 1 0 2 227871
specific-content 1 0 2 293145
specific-content 1 0 2 293146
specific-content 1 0 2 293147
specific-content 1 0 2 317221
specific-content 1 0 2 317222
specific-content 1 0 2 317223
specific-content 1 0 2 403697
specific-content 1 0 2 403698
specific-content 1 0 2 403699
specific-content 3 1 4 248116
specific-content 4 1 2 243292
specific-content 3 1 4 404894
specific-content 3 1 4 660124
specific-content 6 3 4 658537
gas-heat 0 0 0 300000
gas-heat 100000 0 0 300000
gas-heat 100001 0 0 300000
temperature 1 0 0 477599999999
temperature 1 0 0 477600000000
temperature 1 0 0 5378899999999
temperature 1 0 0 5378900000000
temperature 1 0 0 5378900000001";

/// The printed walk; 64 and 65 steps, in fours; start; atoms, calorific value and q.
fn walks() -> Vec<String> {
    let still = |numbers: usize| "0 ".repeat(numbers);
    let mut lines: Vec<String> = WALK.lines().map(str::to_string).collect();
    for numbers in [252, 255, 256, 257, 260] {
        lines.push(format!("walk 1 0 0 300000 {}", still(numbers)));
    }
    lines
}

const WALK: &str = "\
walk 1 0 0 200000 0 0 0 1200000001 0 0 0 2400000
walk 1 0 0 200000
walk 0 0 0 200000
walk 100000 0 0 200000
walk 100001 0 0 200000
walk 1 0 0 199999
walk 1 0 0 2000000
walk 1 0 0 2000001
walk 4000 0 11593 300000
walk 4000 0 11594 300000
walk 1 0 0 2000000 0 0 0 0
walk 1 0 0 2000000 0 0 0 1
walk 1 0 0 200000 0 0 0 0
walk 1 0 0 200000 0 0 0 -1
walk 100000 0 0 300000 -1 0 0 0
walk 100000 0 0 300000 0 -1 0 0
walk 100000 49999 0 300000 1 0 0 0
walk 100000 50000 0 300000 1 0 0 0
walk 100000 0 49999 300000 0 1 0 0
walk 100000 0 50000 300000 0 1 0 0
walk 4000 0 11592 300000 0 1 0 0
walk 4000 0 11593 300000 0 1 0 0
walk 1 0 0 300000 0 0 -1 0
walk 1 0 0 300000 0 0 0 0
walk 1 0 0 300000 0 0 5000000 0
walk 1 0 0 300000 0 0 5000001 0
walk 1 0 0 300000 0 0 0 1000000000000000000
walk 1 0 0 300000 0 0 0 1000000000000000001
walk 1 0 0 300000 0 0 0 -1000000000000000000
walk 1 0 0 300000 0 0 0 -1000000000000000001";

/// w and the key; blank, infinite and not a number; a station's range and its ties.
const MARKING: &str = "\
mark kelvins x4069100000000000 200500 0
mark kelvins x4069100000000000 200500 100000
mark kelvins x4069100000000000 200500 100001
mark kelvins x4069100000000000 200500 -1
mark kelvins x4069100000000000 300500 100000
mark kelvins x4069100000000000 300501 100000
mark kelvins x4069100000000000 100500 100000
mark kelvins x4069100000000000 100499 100000
mark content x3fa0000000000000 3125 0
mark content x3fa0000000000000 3126 0
mark content x3fa0000000000000 1000000000000 0
mark content x3fa0000000000000 1000000000001 0
mark content x3fa0000000000000 -1000000000000 0
mark content x3fa0000000000000 -1000000000001 0
mark blank 0 100000
mark blank 0 100001
mark kelvins x7fefffffffffffff 0 0
mark kelvins x7ff0000000000000 0 0
mark kelvins x7ff0000000000001 0 0
mark kelvins xffefffffffffffff 0 0
mark kelvins xfff0000000000000 0 0
mark kelvins xffffffffffffffff 0 0
station 3 1 4 199999
station 3 1 4 200000
station 3 1 4 2000000
station 3 1 4 2000001
station 1 0 1 288159
station 1 0 2 221121
station 1 0 2 221122
station 1 0 2 221123
station 1 0 2 227869
station 1 0 2 227870
station 1 0 2 227871
station 1 0 2 293145
station 1 0 2 293146
station 1 0 2 293147
station 1 0 2 317221
station 1 0 2 317222
station 1 0 2 317223
station 1 0 2 403697
station 1 0 2 403698
station 1 0 2 403699";
