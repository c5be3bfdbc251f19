// Counts by steps.
let count = 0;
const step = 2;
export function next() {
    count += step / 1;
    return `${count} of 😀`;
}
