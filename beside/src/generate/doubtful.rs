//! Words that are misspelt, or only just right, for every place in the two files.
//!
//! Each list is one string with a space between words, so that one at its
//! start makes the first word empty.

pub const KINDS: &[u8] = b" - kind a sets implies 1 \x00true true\xc3\xa9 set\t not\r";

pub const NAMES: &[u8] = b" - A 1a -a /a a.b a_b a,b a! a` a{ a: 7 sub/Role a\tb a\r \x00 a\x7f \
    caf\xc3\xa9 \xff a//--/9 false abcdefghijklmnopqrstuvwxy abcdefghijklmnopqrstuvwx \
    a----------------------- a------------------------";

pub const NUMBERS: &[u8] = b" - -0 00 01 -01 +1 --1 1- 1.0 1,2 1e3 0x1 a \xb2 1\r 1: 1/ true 0 \
    2147483647 -2147483648 2147483648 -2147483649 3000000000 4294967296 -4294967296 \
    10000000000 18446744073709551617 99999999999999999999999999";

pub const TEXTS: &[u8] = b" - true false True A 1a 7 -a a/b a.b a,b grOwer a\r a\x00 ! \x80 tru \
    true- falsee abcdefghijklmnopq abcdefghijklmnop a---------------";

pub const ACTIONS: &[u8] = b" - 0 15 16 -1 -15 -0 00 015 +1 1a x 15\r 255 256 260 -256 \
    2147483647 -2147483648 2147483648 4294967296";

pub const ALGORITHMS: &[u8] = b" - . 3 all .all permit p-over p-over. p-over.ALL P-over.all \
    p-over.any two-over.all p-over.all. p-over.all.greedy p-over..all p-over-all p-over.al \
    d-unless-d.all p-unless-p.all all.p-over weak.all p.all strong-con.greed one-app.greedyy \
    first-app,all p-over.all\r d-over.\xffall p_over.all first-app.all d-unless-p.greedy";

pub const LINES: &[u8] = b" - 0 -1 -0 00 x true 257 2147483647 -2147483648 2147483648 \
    -2147483649 4294967297";

pub const UNUSED: &[u8] = b" -- 0 1 a -0 _ -\r";

pub const CELLS: &[u8] = b" - -- ! !! -! !- True TRUE fALSE true! -true truee tru false- +1 -0 00 \
    01 -01 -00 1- --1 1.5 1a -a a_b a.b a/b A aB a-- a\t a\r \x00 a\x00 \x7f a\x80 \xc3\xa9 \xff \
    ? 0 -1 2147483647 -2147483648 2147483648 -2147483649 4294967295 18446744073709551616 \
    9999999999999999999999 abcdefghijklmnop abcdefghijklmnopq a---------------- , ,, 1, ,1 1,,2 \
    a, ,a a,,b 1,a a,1 1,2,a a,b,1 true,a a,true true,false 1,true 1,- -,1 -,- !,! a,- a,! !,a \
    1,! 1,-0 1,02 1,+2 1,2147483648 -2147483649,1 a,B a,abcdefghijklmnopq a,b/c 1;2 a,b\r 1,2 \
    a,b 0,0 a,a 1,2,3,4,5,6,7,8 1,2,3,4,5,6,7,8,9 a,b,c,d,e,f,g,h a,b,c,d,e,f,g,h,i \
    1,1,1,1,1,1,1,1,1,1,1,1 1,2,3,4,5,6,7,8, ,1,2,3,4,5,6,7,8 a,b,c,d,e,f,g,H 1,2,3,4,5,6,7,a \
    a,a,a,a,a,a,a,true -2147483648,2147483647 abcdefghijklmnop,a---------------";

/// First lines that are wrong, with a bar between them since spaces matter here.
pub const HEADERS: &[u8] = b"|\n|k|kind|kind a b c d e|kind a b c d\n|kind a b c d e f\n|\
    kind a b c d e \n| kind a b c d e\n|kind  a b c d e\n|kind a b c d e\r\n|Kind a b c d e\n|\
    kind a b c d E\n|KIND A B C D E\n|kind\ta b c d e\n|kind a b c d f\n|kind a b d c e\n|\
    kinds a b c d e\n|kind abcde\n|\xef\xbb\xbfkind a b c d e\n|\x00kind a b c d e\n|\
    kind a b c d e\x00\n|kind - - - - -\n|\nkind a b c d e\n|true - - - - -\n|a b c d e\n";

/// What may follow after the last line that fits, likewise with bars.
pub const TAILS: &[u8] = b"\n| |x|\x00|-|true - - - - -\n|kind a b c d e\n|permit 256 - - - -";

/// Readings files that are short and mostly wrong, likewise with bars.
pub const READINGS: &[u8] = b"|\n|a|a b| \n|a \n| a\n|a\n\n|a\r\n|a\n1\n2|a\n1\nA|a b\n1|a a\n1";

pub fn split(list: &'static [u8], separator: u8) -> Vec<&'static [u8]> {
    list.split(|&byte| byte == separator).collect()
}
