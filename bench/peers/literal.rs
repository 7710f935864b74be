//! The literal peer: a table by the operations of its definition, one after the other, in 128 bits.

mod harness;

use harness::{F, Iv, ONE, STOCKS};

/// The figures at one stock: the expected backorders, their variance, and the chance of more in the pipeline than the stock.
struct Row {
    ebo: Iv,
    vbo: Iv,
    tail: Iv,
}

/// The product: the lower end rounded down, the upper end up.
fn mul(a: Iv, b: Iv) -> Iv {
    Iv {
        lo: (a.lo * b.lo) >> F,
        hi: (a.hi * b.hi).div_ceil(ONE),
    }
}

/// The ratio of the weight at `x` to the one before it.
fn ratio(mean: Iv, excess: Iv, x: u32) -> Iv {
    let above = mean.add(excess.times(x - 1));
    above.div(Iv::exact(1).add(excess).times(x))
}

/// The ratio of the weight before `x` to the one at `x`.
fn back(mean: Iv, excess: Iv, x: u32) -> Iv {
    let above = Iv::exact(1).add(excess).times(x);
    above.div(mean.add(excess.times(x - 1)))
}

/// The weights, from the one at 0 on, and their sum. None where one passes 8 or the rest needn't fall.
fn weights(mean: Iv, excess: Iv) -> Option<(Vec<Iv>, Iv)> {
    let most = 8 * ONE;
    let pivot = (mean.less(excess).lo >> F) as u32;
    let mut list = vec![Iv::exact(1)];
    let mut last = Iv::exact(1);
    for x in (1..=pivot).rev() {
        last = mul(last, back(mean, excess, x));
        if last.hi > most {
            return None;
        }
        list.push(last);
    }
    list.reverse();
    let far = (excess.hi << F).div_ceil(ONE + excess.hi);
    last = Iv::exact(1);
    for x in pivot + 1..=1024 {
        last = mul(last, ratio(mean, excess, x));
        if last.hi > most {
            return None;
        }
        list.push(last);
        if x < 63 {
            continue;
        }
        let bound = ratio(mean, excess, x + 1).hi.max(far);
        if bound >= ONE {
            continue;
        }
        let rest = (last.hi * bound).div_ceil(ONE - bound);
        if rest <= 256 || x == 1024 {
            let mut sum = Iv::exact(0);
            for weight in &list {
                sum = sum.add(*weight);
            }
            sum.hi += rest;
            return Some((list, sum));
        }
    }
    None
}

/// The row at a stock where the weights aren't known.
fn wide_row(mean: Iv, variance: Iv, stock: u32) -> Row {
    Row {
        ebo: Iv {
            lo: mean.less(Iv::exact(stock)).lo,
            hi: mean.hi,
        },
        vbo: Iv {
            lo: 0,
            hi: variance.max_of(mean).hi,
        },
        tail: Iv { lo: 0, hi: ONE },
    }
}

/// The rows at the stocks 0 to 63.
fn table(mean: Iv, variance: Iv) -> Vec<Row> {
    let excess = variance.div(mean).less(Iv::exact(1));
    let Some((list, sum)) = weights(mean, excess) else {
        return (0..STOCKS as u32).map(|s| wide_row(mean, variance, s)).collect();
    };
    let mut rows = Vec::with_capacity(STOCKS);
    let (mut ebo, mut vbo, mut below) = (mean, variance.max_of(mean), Iv::exact(0));
    for weight in &list[..STOCKS] {
        below = below.add(weight.div(sum));
        let tail = Iv::exact(1).less(below);
        rows.push(Row { ebo, vbo, tail });
        ebo = ebo.less(tail);
        vbo = vbo.less(mul(ebo.times(2).add(tail), Iv::exact(1).less(tail)));
    }
    rows
}

fn main() {
    harness::run(table, |rows| {
        debug_assert!(rows[7].tail.lo <= rows[7].tail.hi);
        (rows[7].ebo.lo, rows[9].vbo.hi)
    });
}
