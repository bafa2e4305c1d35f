//! Multiply, Divide and Random against the functions of words.
use crate::routines::setup::{Call, Called, Pair, ROMS, pairs, plain};
use std::alloc::Global;
use std::test::Fail;
use tb_compiled_kept::{LEFT, LINE, RIGHT, SEED, SEEDED};
use tb_runtime16::Routine;
use tb_words::{div_rem, mul, next_seed};

// A routine on two words, at line 10.
fn on_two(alloc: Global, routine: Routine, pair: Pair) -> Result<Called, Fail> {
    Call {
        words: &[(LEFT, pair.left), (RIGHT, pair.right), (LINE, 10)],
        ..plain(routine)
    }
    .run(alloc, pair.rom)
}

// Whether Multiply gives a product.
fn multiplies(alloc: Global, pair: Pair, product: u16) -> Result<bool, Fail> {
    Ok(on_two(alloc, Routine::Multiply, pair)?.gives(product))
}

// Whether Divide gives a quotient, and the size of the remainder, or is fault 2 if there is none.
fn divides(alloc: Global, pair: Pair, parts: Option<(i16, i16)>) -> Result<bool, Fail> {
    let called = on_two(alloc, Routine::Divide, pair)?;
    Ok(match parts {
        Some((quotient, rest)) => {
            called.gives(rest.unsigned_abs()) && called.word(LEFT) == Some(quotient.cast_unsigned())
        }
        None => called.faults(b"", 2),
    })
}

// Whether Divide does what the function of words does.
fn divides_as_words(alloc: Global, pair: Pair) -> Result<bool, Fail> {
    let parts = div_rem(pair.left.cast_signed(), pair.right.cast_signed());
    divides(alloc, pair, parts)
}

#[test]
fn multiply_is_the_product(rt: HostRuntime) -> Result<(), Fail> {
    for rom in ROMS {
        let pair = Pair {
            rom,
            left: 300,
            right: 300,
        };
        assert!(rt; multiplies(rt.alloc(), pair, 24464)?);
    }
    for pair in pairs(rt.alloc())? {
        let product = mul(pair.left.cast_signed(), pair.right.cast_signed());
        let holds = multiplies(rt.alloc(), pair, product.cast_unsigned())?;
        assert!(rt; holds, "{} * {}", pair.left, pair.right);
    }
    Ok(())
}

#[test]
fn divide_is_the_quotient(rt: HostRuntime) -> Result<(), Fail> {
    for rom in ROMS {
        let pair = Pair {
            rom,
            left: 32768,
            right: 65535,
        };
        assert!(rt; divides(rt.alloc(), pair, Some((-32768, 0)))?);
        let pair = Pair {
            rom,
            left: 65429,
            right: 10,
        };
        assert!(rt; divides(rt.alloc(), pair, Some((-10, -7)))?);
    }
    for pair in pairs(rt.alloc())? {
        let holds = divides_as_words(rt.alloc(), pair)?;
        assert!(rt; holds, "{} / {}", pair.left, pair.right);
    }
    Ok(())
}

// Divisors near the largest that eight rounds do, over dividends near the largest whose quotient is a byte.
#[test]
fn divide_takes_each_way(rt: HostRuntime) -> Result<(), Fail> {
    for right in [1_u8, 2, 10, 126, 127, 128, 129, 255] {
        let edge = u16::from_be_bytes([right, 0]);
        for left in [0, edge.wrapping_sub(1), edge, edge.wrapping_add(1)] {
            let pair = Pair {
                rom: None,
                left,
                right: right.into(),
            };
            let holds = divides_as_words(rt.alloc(), pair)?;
            assert!(rt; holds, "{left} / {right}");
        }
    }
    Ok(())
}

// Random over a bound, with the state at an address: LEFT if none is stored yet, else SEED.
fn draw(
    alloc: Global,
    rom: Option<u16>,
    bound: u16,
    state: (u16, u16),
    seeded: u8,
) -> Result<Called, Fail> {
    Call {
        words: &[(RIGHT, bound), state, (LINE, 10)],
        bytes: &[(SEEDED, seeded)],
        ..plain(Routine::Random)
    }
    .run(alloc, rom)
}

// Whether Random takes the state after the one at an address and gives what the bound leaves of it, or is fault 3.
fn draws(alloc: Global, pair: Pair, place: u16, seeded: u8) -> Result<bool, Fail> {
    let (bound, state) = (pair.left, pair.right);
    let called = draw(alloc, pair.rom, bound, (place, state), seeded)?;
    if bound == 0 || bound >= 32768 {
        return Ok(called.faults(b"", 3));
    }
    let seed = next_seed(state);
    Ok(called.gives(seed % bound) && has_drawn(&called, seed))
}

// Whether a state of RND is stored.
fn has_drawn(called: &Called, seed: u16) -> bool {
    called.word(SEED) == Some(seed) && called.byte(SEEDED) == Some(1)
}

#[test]
fn random_takes_the_next_state(rt: HostRuntime) -> Result<(), Fail> {
    for pair in pairs(rt.alloc())? {
        for (place, seeded) in [(LEFT, 0), (SEED, 1)] {
            let holds = draws(rt.alloc(), pair, place, seeded)?;
            assert!(rt; holds, "{} from {}", pair.left, pair.right);
        }
    }
    Ok(())
}

// Whether state 1 gives 2 below 10 and leaves 39022, and a bound of 0 is fault 3.
fn begins_with_two(alloc: Global, rom: Option<u16>) -> Result<bool, Fail> {
    let two = draw(alloc, rom, 10, (LEFT, 1), 0)?;
    let none = draw(alloc, rom, 0, (LEFT, 1), 0)?;
    Ok(two.gives(2) && has_drawn(&two, 39022) && none.faults(b"", 3))
}

#[test]
fn first_numbers(rt: HostRuntime) -> Result<(), Fail> {
    for rom in ROMS {
        assert!(rt; begins_with_two(rt.alloc(), rom)?);
    }
    Ok(())
}
