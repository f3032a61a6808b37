//! Small networks written by hand, for conversations that chance makes too seldom.

/// A client that asks and tells another service in a loop, and a service that asks outside.
pub const TALK: &str = "
    location a = 1 location b = 2 location out = 100
    type Int = int
    type Pair = void { 1: int, 2?: bool }
    service a {
        input 3: Pair
        input 9: Pair
        output 4 to b: Pair -> Int
        output 5 to b: Pair
        client {
            set 5 = int 0; set 6.1 = int 7; set 6.2 = false; set 9 = int 0;
            while 5 < int 3 do {
                ask 4 to b with 6 into 9;
                if 9 == int 14 then set 6.2 = true else nil;
                set 5 = 5 + int 1;
                send 5 to b with 6
            };
            choice { on receive 3 into 10 then nil on receive 9 into 10 then set 5 = 10.1 }
        }
    }
    service b {
        input 4: Pair -> Int
        input 5: Pair
        output 6 to out: Int -> Pair
        output 3 to a: Pair
        output 9 to a: Pair
        starter choice {
            on answer 4 into 20 do {
                set 21 = 20.1 + 20.1;
                if present 20.2 then set 21 = 20.1 else nil
            } reply 21 then while 21 < int 0 do nil
            on receive 5 into 22 then {
                ask 6 to out with 22.1 into 23;
                parallel { send 3 to a with 23 } { send 9 to a with 22 }
            }
        }
    }";

/// A session that asks and answers itself, in a loop.
pub const ITSELF: &str = "
    location a = 1
    type Int = int
    service a {
        input 3: Int -> Int
        output 3 to a: Int -> Int
        client {
            set 5 = int 0; set 6 = int 0; set 7 = int 0; set 9 = int 0;
            parallel
                { while 5 < int 3 do { ask 3 to a with 5 into 9; set 5 = 5 + int 1 } }
                { while 6 < int 3 do { answer 3 into 7 do set 6 = 6 + int 1 reply 6 } }
        }
        starter choice { on answer 3 into 7 do set 8 = 7 reply 8 then nil }
    }";

/// Messages that are too deep for the paths into which they go: the checker refuses it with 12.
pub const DEEP: &str = "
    location a = 1 location b = 2
    type Deep = void { 1: void { 1: void { 1: int } } }
    service a {
        output 3 to b: Deep
        output 4 to b: Deep -> Deep
        client {
            set 5.1.1.1 = int 1; set 6.1.1.1 = int 2;
            parallel { send 3 to b with 5 } { ask 4 to b with 6 into 9.9.9.9 };
            send 3 to b with 5
        }
    }
    service b {
        input 3: Deep
        input 4: Deep -> Deep
        starter choice {
            on receive 3 into 7.7.7.7 then nil
            on answer 4 into 8 do nil reply 8 then nil
        }
        client { receive 3 into 7; answer 4 into 8.8.8 do nil reply 7 }
    }";

/// Values that are worked out and sent, inside and outside, for ever.
pub const SUMS: &str = "
    location a = 1 location out = 100
    type Long = long
    type Flag = bool
    service a {
        input 3: Long
        output 3 to a: Long
        output 4 to out: Flag
        output 5 to out: Flag -> Long
        client {
            set 5 = long 1; set 6 = true; set 7 = long 0;
            while 6 do {
                send 3 to a with 5 + 7;
                parallel { send 4 to out with not 6 } { receive 3 into 7 };
                ask 5 to out with 5 < 7 and 6 into 5
            }
        }
    }";

/// Choices, ifs and whiles with answers in them.
pub const NESTED: &str = "
    location a = 1 location out = 100
    type Int = int
    service a {
        input 3: Int -> Int
        input 4: Int
        output 5 to out: Int
        client {
            set 5 = int 0; set 6 = int 0; set 7 = true;
            while 7 do {
                choice {
                    on answer 3 into 5 do { set 6 = 5; send 5 to out with 6 } reply 6 then nil
                    on receive 4 into 5 then if 5 < 6 then answer 3 into 6 do set 6 = int 1 reply 5 else set 7 = false
                };
                if 6 < 5 then { answer 3 into 6 do nil reply 6 } else { receive 4 into 6 }
            }
        }
        starter choice {
            on answer 3 into 8 do {
                set 9 = 8;
                while 9 < int 2 do { receive 4 into 9; set 9 = 9 + int 1 }
            } reply 9 then choice { on answer 3 into 8 do send 5 to out with 8 reply 8 then nil }
        }
    }";

pub const ALL: [&str; 5] = [TALK, ITSELF, DEEP, SUMS, NESTED];

/// The file of one of the texts.
pub fn file(text: &str) -> Vec<u8> {
    net::assemble(text).unwrap_or_else(|error| panic!("{error}")).file
}

#[cfg(test)]
mod tests {
    use super::*;

    #[test]
    fn all_but_one_are_accepted() {
        let number = |text: &str| second::check(&file(text)).map_or_else(|refusal| refusal.number, |_| 0);
        assert_eq!(ALL.map(number), [0, 0, 12, 0, 0]);
    }
}
