// @ts-check
// Reads the frames of a camera: until two agree, or one code after another.
"use strict";

// Milliseconds between two frames, if the browser does not announce them, and the longest wait for one.
const PAUSE = 30, LONGEST = 1000;

let stream, starting = false;

const CAMERA_PROBLEMS = ["NotAllowedError", "NotFoundError", "NotReadableError"];

const cameraProblem = ({ name }) => CAMERA_PROBLEMS.includes(name) ? t(`camera${name}`) : t("cameraFails", name);

function stopCamera() {
  for (const track of stream?.getTracks() ?? []) track.stop();
  stream = null;
  at("view").hidden = true;
  at("video").srcObject = null;
  at("camera-text").textContent = t("useCamera");
}

async function startCamera() {
  at("read-fault").textContent = "";
  if (!navigator.mediaDevices?.getUserMedia) {
    at("read-fault").textContent = t("cameraNoServer");
    return;
  }
  // While the browser asks the person, the button does not ask again; it keeps the focus.
  if (starting) return;
  starting = true;
  try {
    stream =
      await navigator.mediaDevices.getUserMedia({ video: { facingMode: "environment", width: { ideal: 1280 } } });
  } catch (error) {
    at("read-fault").textContent = cameraProblem(error);
    return;
  } finally {
    starting = false;
  }
  const [track] = stream.getVideoTracks();
  track.addEventListener("ended", () => {
    if (!stream) return;
    stopCamera();
    at("read-fault").textContent = t("cameraGone");
  });
  at("camera-text").textContent = t("stopCamera");
  at("video").srcObject = stream;
  at("view").hidden = false;
  try {
    await at("video").play();
  } catch {
    // It was stopped before it began.
    return;
  }
  say("cameraHold");
  await readFrames();
}

// A frame of the camera as a picture.
/** @returns {any} */
function frameOf(video) {
  const canvas = new OffscreenCanvas(video.videoWidth, video.videoHeight);
  const pen = canvas.getContext("2d", { willReadFrequently: true });
  pen.drawImage(video, 0, 0);
  return { ...greyOf(pen.getImageData(0, 0, canvas.width, canvas.height)), image: canvas, name: "" };
}

// Waits for the next frame of the video, and says whether there is one; for a while, if the browser announces none.
function nextFrame(video) {
  return new Promise((done) => {
    if (video.requestVideoFrameCallback) video.requestVideoFrameCallback(() => done(true));
    setTimeout(done, video.requestVideoFrameCallback ? LONGEST : PAUSE, !video.requestVideoFrameCallback);
  });
}

// Reads frame by frame. If two in a row show the same, it holds the second and ends the camera; in a series it keeps
// the codes and goes on.
async function readFrames() {
  const mine = stream;
  let before = "";
  while (stream === mine) {
    const isNew = await nextFrame(at("video"));
    if (stream !== mine) return;
    if (!isNew) continue;
    const frame = frameOf(at("video"));
    readPicture(frame);
    const says = frame.symbols.map(({ line }) => line).sort().join("\n");
    if (says && says === before) {
      if (!at("scan-on").checked) return hold(frame);
      keep(frame);
    }
    before = says;
  }
}

function hold(frame) {
  stopCamera();
  takes++;
  takePicture(frame);
  beep(1760, 0.1);
}

// Puts what a frame shows before the codes of its series, each once.
function keep({ symbols: seen }) {
  const isOpen = pictures[0]?.series && pictures[0].stream === stream;
  const series = isOpen ? pictures[0] : { series: true, name: "", symbols: [], stream },
    before = new Set(series.symbols.map(({ line }) => line));
  const added = seen.filter(({ line }) => !before.has(line));
  if (!added.length) return;
  series.symbols = [...added.reverse(), ...series.symbols];
  delete series.card;
  if (!isOpen) pictures = [series, ...pictures];
  tellRead();
  beep(1760, 0.1);
  navigator.vibrate?.(60);
}

function listenToCamera() {
  at("camera").addEventListener("click", () => { document.read = stream ? stopCamera() : startCamera(); });
  addEventListener("pagehide", stopCamera);
  addEventListener("task", ({ detail }) => { if (detail !== "read" && stream) stopCamera(); });
}
