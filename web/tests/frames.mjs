// web/tests/frames.mjs: what Page.frames runs in the page. A page that answers its user comes to its next frame in some 16 ms; each reads the clock.

// Starts with the next frame.
export function startFrames() {
    const state = { frames: 0, longest: 0, gaps: [], tasks: [], last: 0, on: true };
    window.measuredFrames = state;
    const keep = (entries) => entries.forEach(({ duration }) => state.tasks.push(duration));
    if (PerformanceObserver.supportedEntryTypes.includes("longtask")) {
        state.observer = new PerformanceObserver((list) => keep(list.getEntries()));
        state.observer.observe({ type: "longtask" });
    }
    const step = () => {
        const now = performance.now();
        const gap = now - state.last;
        state.last = now;
        state.frames += 1;
        state.longest = Math.max(state.longest, gap);
        if (gap > 50) state.gaps.push(gap);
        if (state.on) requestAnimationFrame(step);
    };
    return new Promise((done) => requestAnimationFrame(() => {
        state.last = performance.now();
        requestAnimationFrame(step);
        done();
    }));
}

// Ends with the next frame but one, so that a gap at the end counts; long tasks are told a little later than they end.
export async function stopFrames() {
    const state = window.measuredFrames;
    if (!state) throw new Error("the page was opened anew while its frames were measured");
    const frame = () => new Promise((done) => requestAnimationFrame(done));
    await frame();
    state.on = false;
    await frame();
    await new Promise((done) => setTimeout(done, 20));
    state.observer?.disconnect();
    delete window.measuredFrames;
    const { frames, longest, gaps, tasks } = state;
    return { frames, longest, gaps, tasks };
}
