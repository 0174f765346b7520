// Numbers by chance, the same for the same seed (mulberry32).
export function chance(seed) {
  let a = seed >>> 0;
  const next = () => {
    a = a + 0x6d2b79f5 >>> 0;
    let t = Math.imul(a ^ a >>> 15, 1 | a);
    t = t + Math.imul(t ^ t >>> 7, 61 | t) ^ t;
    return ((t ^ t >>> 14) >>> 0) / 2 ** 32;
  };
  return { next, below: n => Math.floor(next() * n), is: p => next() < p };
}

/** The seed of a run: SEED of the environment, else one by the clock; it is printed. */
export function seedOf(name) {
  const seed = Number(process.env.SEED || Date.now() % 2 ** 31);
  console.log(`${name}: SEED=${seed}`);
  return seed;
}
