//! sound blocks as files, for tests/flips.c and bench/*.c.
use crate::busy::busy;
use crate::codec;
use crate::lent::Lent;
use crate::question::sound;
use crate::rich::{rich, Size};
use crate::state::State;
use oracle::gen::Rng;
use oracle::LAST_NEXT;
use std::path::Path;

fn write(file: &Path, mut lent: Lent, s: &State) -> std::io::Result<()> {
    lent.block = codec::encode(s);
    if let Err(why) = sound(&lent) { return Err(std::io::Error::other(format!("{}: unsound: {why}", file.display()))); }
    std::fs::write(file, &lent.block)
}

/// whether calls can still be given handles; a quarter of the random states has none left.
pub fn gives_handles(s: &State) -> bool { s.next_handle < LAST_NEXT - 16 }

/// what `full.block` holds: of the random full states the first in which the benchmark's calls can make objects.
pub fn full() -> State {
    let mut r = Rng::new(0);
    std::iter::repeat_with(|| rich(&mut r, &Size::FULL)).find(gives_handles).unwrap()
}

/// `full.block`, `busy.block` and `1.block` to `count.block`.
pub fn blocks(dir: &Path, count: u64) -> std::io::Result<()> {
    std::fs::create_dir_all(dir)?;
    for (name, s) in [("full", full()), ("busy", busy(false))] { write(&dir.join(format!("{name}.block")), Lent::random(&mut Rng::new(0)), &s)?; }
    for n in 1..=count {
        let mut r = Rng::new(n);
        let size = Size::random(&mut r);
        let lent = Lent::random(&mut r);
        write(&dir.join(format!("{n}.block")), lent, &rich(&mut r, &size))?;
    }
    Ok(())
}
