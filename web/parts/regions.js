// regions.js: where the regions of a store stand, and those of the desk's area: docs/STORE.md. A page draws by them; nothing is judged by them.

// Bytes of a slot's text, where each has a place of its own (a vehicle), and where all share an area (a hand-held) and the slot only has its length.
const REGION_FORMS = {
    handheld: { lines: 32, channels: 64, quick: 1, text: 1, area: 4096, size: 24576 },
    vehicle: { lines: 128, channels: 256, quick: 46, text: 32, area: 0, size: 49152 },
};

// Key, slots, bytes of a slot, bytes of the count before them.
function regionRows({ lines, channels, quick, text, area }) {
    return [
        ["hash", 1, 11, 0], ["emergencyKey", 1, 4, 0], ["homeNumbers", 1, 4, 0], ["systemCode", 1, 3, 0],
        ["quickTexts", 64, quick, 0], ["statusTexts", 96, 1 + text, 0],
        ["groups", 16, 4 + text, 0], ["individuals", 16, 4 + text, 0], ["lineSlots", 16, 20 + text, 0],
        ["groupContacts", 64, 4 + text, 2], ["individualContacts", 64, 4 + text, 2],
        ["channels", channels, 2, 2], ["lines", lines, 20 + text, 2], ["lineOrder", lines, 1, 0],
        ...(area > 0 ? [["texts", 1, area, 0]] : []),
    ];
}

// The regions of a kind, from byte 0 to the end without a gap: {key, from, to, slots, slotBytes, first}. A list's first slot stands behind its count.
export function regionsOf(kind) {
    if (kind === "desk") {
        const used = { key: "used", from: 0, to: 4, slots: 1, slotBytes: 4, first: 0 };
        return [used, { key: "requests", from: 4, to: 32768, slots: 1, slotBytes: 32764, first: 4 }];
    }
    let end = 0;
    const regions = regionRows(REGION_FORMS[kind]).map(([key, slots, slotBytes, count]) => {
        const from = end;
        end = from + count + slots * slotBytes;
        return { key, from, to: end, slots, slotBytes, first: from + count };
    });
    return [...regions, { key: "spare", from: end, to: REGION_FORMS[kind].size, slots: 0, slotBytes: 0, first: end }];
}

// Where two stores of one length differ: runs [from, to) of bytes.
export function changedBytes(before, after) {
    const runs = [];
    for (let at = 0; at < after.length; at++) {
        if (before[at] === after[at]) continue;
        const last = runs[runs.length - 1];
        if (last && last[1] === at) last[1] = at + 1;
        else runs.push([at, at + 1]);
    }
    return runs;
}

// Slots of a region that are not all 0, which is how an empty one is kept.
function regionUsedSlots(region, bytes) {
    const { first, slots, slotBytes } = region;
    const isUsed = (_, slot) => bytes.subarray(first + slot * slotBytes, first + (slot + 1) * slotBytes).some((byte) => byte !== 0);
    return Array.from({ length: slots }, isUsed).filter((used) => used).length;
}

// Bytes from a region's start to the last that is not 0, made even: no unit of a text is 0.
function regionTextBytes(region, bytes) {
    let end = region.to;
    while (end > region.from && bytes[end - 1] === 0) end -= 1;
    return (end - region.from + 1) & ~1;
}

// How much of each region is used: [{key, slots, bytes}] as regionsOf has them. Of texts and requests the bytes are counted, of all else the slots.
export function usedBytes(kind, bytes) {
    return regionsOf(kind).map((region) => {
        if (region.key === "requests") return { key: region.key, slots: 1, bytes: (bytes[2] << 8) | bytes[3] };
        const slots = regionUsedSlots(region, bytes);
        return { key: region.key, slots, bytes: region.key === "texts" ? regionTextBytes(region, bytes) : slots * region.slotBytes };
    });
}
