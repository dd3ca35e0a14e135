// Scrolls through the whole wave, frame by frame, and tells how long drawing took (milliseconds).
const done = arguments[arguments.length - 1];
const box = document.querySelector(".wave-box");
const canvas = box.querySelector("canvas");
const FRAMES = 160;
const spans = [];
const pictures = new Set();
const end = box.scrollWidth - box.clientWidth;
const request = window.requestAnimationFrame;
let drawn = 0;
window.requestAnimationFrame = (act) => request((time) => {
  const begun = performance.now();
  act(time);
  drawn += performance.now() - begun;
});
const picture = () => {
  const { data } = canvas.getContext("2d").getImageData(140, 0, 300, 24);
  let sum = 0;
  for (let at = 0; at < data.length; at += 1) sum = (sum * 31 + data[at]) | 0;
  return sum;
};
const turn = (frame) => {
  if (frame) spans.push(drawn);
  if (frame > 1) pictures.add(picture());
  if (frame === FRAMES) {
    window.requestAnimationFrame = request;
    spans.sort((one, other) => one - other);
    const at = (part) => Math.round(spans[Math.floor((spans.length - 1) * part)] * 100) / 100;
    done({ median: at(0.5), most: at(1), frames: spans.length, unlike: pictures.size });
    return;
  }
  drawn = 0;
  box.scrollLeft = (end * frame) / FRAMES;
  request(() => request(() => turn(frame + 1)));
};
turn(0);
