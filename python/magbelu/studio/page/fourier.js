// Spectra: the fast Fourier transform of Cooley and Tukey, over powers of two.

/** The transform of complex numbers, in place. */
export function transform(real, imaginary) {
    const count = real.length;
    for (let at = 1, mirrored = 0; at < count; at++) {
        let bit = count >> 1;
        for (; mirrored & bit; bit >>= 1) mirrored ^= bit;
        mirrored ^= bit;
        if (at < mirrored) {
            [real[at], real[mirrored]] = [real[mirrored], real[at]];
            [imaginary[at], imaginary[mirrored]] = [imaginary[mirrored], imaginary[at]];
        }
    }
    for (let size = 2; size <= count; size *= 2) {
        const half = size / 2, turn = (-2 * Math.PI) / size;
        for (let place = 0; place < half; place++) {
            const cosine = Math.cos(turn * place), sine = Math.sin(turn * place);
            for (let low = place; low < count; low += size) {
                const high = low + half;
                const re = real[high] * cosine - imaginary[high] * sine, im = real[high] * sine + imaginary[high] * cosine;
                real[high] = real[low] - re;
                imaginary[high] = imaginary[low] - im;
                real[low] += re;
                imaginary[low] += im;
            }
        }
    }
}

/** The greatest power of two that is not above a number. */
export const powerBelow = (number) => 2 ** Math.floor(Math.log2(Math.max(number, 1)));

const decibels = (power) => 10 * Math.log10(Math.max(power, 1e-12));

/** The spectrum of the last items, in decibels, of which 0 is a sine with the amplitude `full`: from frequency 0 to
 * half a cycle an item. */
export function spectrumOf(items, full) {
    const count = powerBelow(items.length);
    const last = items.subarray(items.length - count);
    const mean = last.reduce((sum, it) => sum + it, 0) / count;
    const real = new Float64Array(count), imaginary = new Float64Array(count);
    // (a window of Hann, whose sum is half the count)
    for (let at = 0; at < count; at++) real[at] = ((last[at] - mean) / full) * (1 - Math.cos((2 * Math.PI * at) / count));
    transform(real, imaginary);
    const scale = 4 / count ** 2;
    return Float64Array.from({ length: count / 2 + 1 }, (_, at) => decibels((real[at] ** 2 + imaginary[at] ** 2) * scale));
}

/** How much taps amplify each frequency, in decibels, from 0 to half a cycle an item. */
export function responseOf(taps, shift, count = 512) {
    const real = new Float64Array(2 * count), imaginary = new Float64Array(2 * count);
    taps.forEach((it, at) => (real[at] += it / 2 ** shift));
    transform(real, imaginary);
    return Float64Array.from({ length: count + 1 }, (_, at) => decibels(real[at] ** 2 + imaginary[at] ** 2));
}
