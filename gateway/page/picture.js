// Pictures from files: decoded, made smaller, and written as a JPEG that a card has room for.

const SIDE = 720;
// A card has at most 65,536 bytes; a picture is written with four characters for three bytes, and
// folded.
export const MOST = 60_000;

// A file as a data: URL of at most so many characters; null where it is no picture that the browser
// decodes.
export async function readPicture(file, most = MOST) {
  let bitmap;
  try {
    bitmap = await createImageBitmap(file);
  } catch {
    return null;
  }
  for (let side = SIDE; side >= 90; side = Math.floor(side * 0.75)) {
    for (const quality of [0.85, 0.7]) {
      const data = drawn(bitmap, side, quality);
      if (data.length * (78 / 75) <= most) return data;
    }
  }
  return null;
}

function drawn(bitmap, side, quality) {
  const scale = Math.min(1, side / Math.max(bitmap.width, bitmap.height));
  const canvas = document.createElement("canvas");
  canvas.width = Math.max(1, Math.round(bitmap.width * scale));
  canvas.height = Math.max(1, Math.round(bitmap.height * scale));
  const context = canvas.getContext("2d");
  context.fillStyle = "white";
  context.fillRect(0, 0, canvas.width, canvas.height);
  context.drawImage(bitmap, 0, 0, canvas.width, canvas.height);
  return canvas.toDataURL("image/jpeg", quality);
}
