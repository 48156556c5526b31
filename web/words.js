// What a refusal means to a rider, and where on the map it lies.

const KINDS = {
  end: 'the text ends in the middle of an assignment',
  token: 'this word can\'t stand here',
  bracket: 'a bracket is missing, or one is too many',
  section: 'this opens no section, or stands before the first one',
  number: 'this is no number of the language',
  deep: 'this is nested too deep',
};

const ROWS = [
  [/^not mapped: waypoint (\d+)$/, ([p]) => ({
    text: `Waypoint ${p + 1}: no node of a road that the profile and the circles leave open is within 250 metres.`, waypoints: [p] })],
  [/^no track: leg (\d+)$/, ([leg]) => ({
    text: `No permitted ride leads from waypoint ${leg + 1} to waypoint ${leg + 2}. That is proved, no search gave up: a one-way, a gate, `
      + 'a turn restriction or a circle is in the way, or the map ends too early.', waypoints: [leg, leg + 1] })],
  [/^label budget spent: leg (\d+), alternative (\d+)$/, ([leg]) => ({
    text: `The search from waypoint ${leg + 1} to waypoint ${leg + 2} stopped at its limit. Whether there is a track isn't known. `
      + 'Set a waypoint between.', waypoints: [leg, leg + 1] })],
  [/^override (\d+): unknown name$/, () => ({ text: 'The profile has no variable of one of the names that were given a value.' })],
  [/^profile unknown$/, () => ({ text: 'The server knows no profile of that name. One that was sent is there until the server ends.' })],
  [/^profile line (\d+): (\w+)$/, ([line], [, kind]) => ({ text: `Line ${line}: ${KINDS[kind] ?? kind}.`, line })],
  [/^profile line (\d+): (.+)$/, ([line], [, what]) => ({ text: `Line ${line}: ${what}.`, line })],
  [/^profile: no costfactor$/, () => ({ text: 'The section of ways assigns no costfactor.' })],
  [/^way (\d+) (.*)$/, (_, [id, rest]) => ({ text: `On way ${id} the profile fails: ${rest}.` })],
  [/^node (\d+) (.*)$/, (_, [id, rest]) => ({ text: `At node ${id} the profile fails: ${rest}.` })],
  [/^global (.*)$/, (_, [rest]) => ({ text: `The profile's global section fails: ${rest}.` })],
  [/^(\w+) is negative$/, (_, [name]) => ({ text: `The value of ${name} is below zero.` })],
  [/^query: too many in lonlats$/, () => ({ text: 'A ride has at most 100 waypoints.' })],
  [/^query: too many in nogos$/, () => ({ text: 'A ride has at most 64 circles.' })],
  [/^query: bad value of nogos$/, () => ({ text: 'A circle has a radius of at most 100 kilometres.' })],
  [/^query: (bad value of|missing) cost$/, () => ({ text: 'A cost is a number from 0 to 1000000000.' })],
  [/^query: bad value of (.*)$/, (_, [name]) => ({ text: `The server doesn't take this value of ${name}.` })],
  [/^sessions full$/, () => ({ text: 'The server is busy. Ask again in a moment.' })],
  [/^uploads full$/, () => ({ text: 'The server holds as many profiles as it can. Its operator has to start it anew.' })],
  [/^out of memory$/, () => ({ text: 'There wasn\'t enough memory for this request.' })],
  [/^body too long$/, () => ({ text: 'The text is too long: a profile has at most 262,144 bytes.' })],
  [/^head too long$/, () => ({ text: 'The question is too long for the server.' })],
  [/^(path unknown|method not allowed|bad request)$/, (_, [line]) => ({ text: `The server doesn't offer this (${line}).` })],
  [/^no answer$/, () => ({ text: 'The server doesn\'t answer. Is it running, and is its address right?' })],
  [/^answer broke off$/, () => ({ text: 'The answer broke off. Ask again.' })],
  [/^answer broken$/, () => ({ text: 'The answer isn\'t whole, or isn\'t JSON. Ask again.' })],
  [/^answer is a page$/, () => ({ text: 'A web page came where an answer should be: another program listens at this address.' })],
  [/^answer is no (.+)$/, (_, [what]) => ({ text: `The answer holds no ${what}: another program listens at this address.` })],
  [/^ids too large$/, () => ({ text: 'The map has node ids beyond 9007199254740991, which a browser can\'t tell apart.' })],
  [/^front 413$/, () => ({ text: 'The text is too long for the server.' })],
  [/^(front 429|too many requests)$/, () => ({ text: 'Too many requests in a short time. Ask again in a minute.' })],
  [/^(front 50[234]|no process answers)$/, () => ({ text: 'The web server is there, but no route server answers it. Ask again in a moment.' })],
  [/^front (\d+)$/, ([status]) => ({ text: `The web server answered with status ${status}, and not with a track.` })],
  [/^no profile file$/, () => ({
    text: 'The text of this profile can\'t be read here, so its variables aren\'t shown. Rides by it are found all the same.' })],
  [/^packed profile broken$/, () => ({ text: 'The address holds a profile that can\'t be unpacked: the link was cut off or changed.' })],
  [/^page at fault$/, () => ({ text: 'The page failed at this; its console tells where. Ask again, or load the page anew.' })],
];

// The words for a refusal's line, with the waypoints or the line of a text that it names.
export function wordsOf(line) {
  for (const [form, words] of ROWS) {
    const found = form.exec(line);
    if (found) {
      const parts = found.slice(1);
      return { waypoints: [], ...words(parts.map(Number), parts) };
    }
  }
  return { waypoints: [], text: line ? `The server refused it: ${line}.` : 'The server refused it.' };
}

// The same where a search goes from each waypoint to many nodes: the number of a leg is that of the waypoint.
export function wordsOfSearches(line) {
  const [, waypoint] = /^label budget spent: leg (\d+)/.exec(line) ?? [];
  if (waypoint === undefined) return wordsOf(line);
  return { waypoints: [Number(waypoint)], text: `The search from waypoint ${Number(waypoint) + 1} stopped at its limit.` };
}
