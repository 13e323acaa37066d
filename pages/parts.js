// Files that are too long for one request: a folder whose child at place i, from 0 on, is named by i in ten digits and
// is a file of 16,777,216 bytes, the last of those that are left. Each child's metadata tell how many parts there are,
// and how many bytes in all. Others read it as a folder.

/** The most bytes that a gateway takes in one body, and so those of each part but the last. */
export const PART_BYTES = 16777216;

const nameOf = place => String(place).padStart(10, '0');

/** The children of the folder that a file of so many bytes is, from the caps of its parts. */
export function partsFolder(caps, size) {
  const metadata = { 'wozhinnam-parts': { count: caps.length, size } };
  return caps.map((cap, i) => ({ name: nameOf(i), cap, metadata }));
}

/** Whether an object has just these keys. */
const hasKeys = (object, ...keys) => object !== null && typeof object === 'object' && !Array.isArray(object)
  && Object.keys(object).sort().join() === keys.join();

function areMetadata(metadata, count, size) {
  const told = hasKeys(metadata, 'wozhinnam-parts') && metadata['wozhinnam-parts'];
  return told && hasKeys(told, 'count', 'size') && told.count === count && told.size === size;
}

/**
 * The size and the caps of the file in parts that a folder's children are; null where they differ from one in anything.
 * Their number and the last one's size give the size of the whole, with which all else has to agree.
 */
export function partsIn(children) {
  const count = children.length, last = count > 0 ? children[count - 1].cap : null;
  if (count < 2 || last.dir || last.size < 1 || last.size > PART_BYTES) return null;
  const size = (count - 1) * PART_BYTES + last.size;
  const arePart = ({ name, cap, metadata }, i) => name === nameOf(i) && !cap.dir && areMetadata(metadata, count, size)
    && cap.size === (i < count - 1 ? PART_BYTES : last.size);
  return children.every(arePart) ? { size, caps: children.map(child => child.cap) } : null;
}
