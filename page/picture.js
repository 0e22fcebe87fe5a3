// @ts-check
// Pictures: their grey values.
"use strict";

// White space and comments in the header of a PBM image (netpbm, pbm(5)), and the header.
const BETWEEN = "(?:[ \\t\\n\\v\\f\\r]|#[^\\r\\n]*[\\r\\n])+";
const HEADER = new RegExp(`^P4${BETWEEN}(\\d{1,5})${BETWEEN}(\\d{1,5})[ \\t\\n\\v\\f\\r]`);

// The most pixels of a picture that is made of images.
const MOST_DOTS = 2 ** 28;

// The images of a PBM file (P4), one below another, as pixels; or nothing if it is none, or has too many.
function pixelsOfPbm(bytes) {
  const images = [];
  for (let from = 0; from < bytes.length;) {
    const header = String.fromCharCode(...bytes.subarray(from, from + 4096)).match(HEADER);
    if (!header) return null;
    const width = Number(header[1]), height = Number(header[2]), raster = from + header[0].length;
    from = raster + ((width + 7) >> 3) * height;
    if (!width || !height || width > 65535 || from > bytes.length) return null;
    images.push({ width, height, raster });
  }
  if (!images.length) return null;
  const width = Math.max(...images.map((image) => image.width));
  const height = images.reduce((sum, image) => sum + image.height, 0);
  if (width * height > MOST_DOTS) return null;
  const grey = new Uint8Array(width * height).fill(255);
  let row = 0;
  for (const image of images) {
    const stride = (image.width + 7) >> 3;
    for (let y = 0; y < image.height; y++, row++) {
      for (let x = 0; x < image.width; x++) {
        if (bytes[image.raster + y * stride + (x >> 3)] >> (7 - (x & 7)) & 1) grey[row * width + x] = 0;
      }
    }
  }
  return { width, height, grey };
}

// The grey values of a picture's pixels. Transparent ones are white.
function greyOf({ width, height, data }) {
  const grey = new Uint8Array(width * height);
  const pixels = new Uint32Array(data.buffer, data.byteOffset, grey.length);
  for (let i = 0; i < grey.length; i++) {
    const p = pixels[i], clear = 255 - (p >>> 24);
    const value = ((p & 255) * 77 + (p >> 8 & 255) * 150 + (p >> 16 & 255) * 29) >> 8;
    grey[i] = clear ? (value * (255 - clear) + 255 * clear) / 255 : value;
  }
  return { width, height, grey };
}
