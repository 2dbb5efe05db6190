// What goes to the server and comes back.

const MOST_BODY = 60_000; // for which a sight goes with it; the server takes 65,536 bytes

export class Refused extends Error {}

async function answered(request) {
  const response = await request;
  if (!response.ok) throw new Refused(await response.text());
  return response;
}

export const json = async (path) => (await answered(fetch(path))).json();

// Hands lines on. The answer has the entries, the state, and for each layer that changed what became of it, with its text as bytes. Where
// a sight is given, which has rows and columns, it may have the cells of these alone.
export async function say(lines, shown, sight = null) {
  const whole = JSON.stringify({lines, shown, sight});
  const body = whole.length > MOST_BODY ? JSON.stringify({lines, shown}) : whole;
  const request = {method: 'POST', headers: {'Content-Type': 'application/json'}, body};
  const bytes = new Uint8Array(await (await answered(fetch('say', request))).arrayBuffer());
  const end = bytes.indexOf(10);
  const answer = JSON.parse(new TextDecoder().decode(bytes.subarray(0, end)));
  let place = end + 1;
  for (const change of Object.values(answer.layers)) {
    change.text = bytes.subarray(place, place + change.length);
    place += change.length;
  }
  return answer;
}
