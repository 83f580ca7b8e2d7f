// Makes this number of random steps of passes, from a page without events, with further calls and moves back between them.
// `hands` are what a reader has for that: the page's buttons, or the functions of its machine alone.
function driveAtRandom(hands, seed, steps, most_words) {
  let state = seed;
  // by Park and Miller
  const random = n => { state = state * 48271 % 2147483647; return state % n; };
  let made = 0;
  while (made < steps) {
    const row = random(hands.rows);
    if (random(40) === 0) {
      const back = random(6);
      for (let i = 0; i < back; i++) hands.back();
    } else if (random(9) === 0 || !hands.step(row)) {
      const words = [];
      for (let n = 1 + random(most_words); n > 0; n--) words.push(random(12) === 0 ? '18446744073709551615' : String(random(100)));
      hands.add(row, row >= hands.senders || random(9) > 0 ? words : null);
    } else {
      made++;
    }
  }
}
