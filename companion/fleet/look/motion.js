// Where an object is at a tick, by the motions that it has had.
//
// Its motions are arrays of whole numbers, in the order of their first ticks: [tick, x, y, dx, dy, ticks, .., dx, dy] is a
// place and its legs, the last of which never ends, and [tick] says that the object isn't there from that tick on. Places
// are thousandths and slopes thousandths a tick, which a number of JavaScript holds exactly.

/// The motion that holds at a tick, or null where the object isn't there.
export function motionAt(motions, tick) {
  let [low, high] = [0, motions.length];
  while (low < high) {
    const middle = (low + high) >> 1;
    if (motions[middle][0] <= tick) low = middle + 1;
    else high = middle;
  }
  return low === 0 || motions[low - 1].length === 1 ? null : motions[low - 1];
}

/// The place at a tick that isn't before the motion's first, and the slope from there on: { x, y, dx, dy }.
export function placeBy(motion, tick) {
  let [left, x, y, at] = [tick - motion[0], motion[1], motion[2], 3];
  for (; at + 2 < motion.length && left >= motion[at + 2]; at += 3) {
    x += motion[at] * motion[at + 2];
    y += motion[at + 1] * motion[at + 2];
    left -= motion[at + 2];
  }
  return { x: x + motion[at] * left, y: y + motion[at + 1] * left, dx: motion[at], dy: motion[at + 1] };
}
