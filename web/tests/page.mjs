// web/tests/page.mjs PAGE [PICTURE]: the bench page in a headless Chromium, as a user opens it, from disk; with a second word the picture for docs/ is written there.
import { resolve } from "node:path";
import { pathToFileURL } from "node:url";
import { launch } from "./chromium.mjs";
import { after, run } from "./harness.mjs";
import { allShiftTests } from "./page_shift.mjs";
import { allUseTests } from "./page_use.mjs";
import { openExample, openPage, runAll, drawn, inStep } from "./page_steps.mjs";

const [page, picture] = process.argv.slice(2);
const url = pathToFileURL(resolve(page)).href;
const browser = await launch({ width: 1440, height: 1000 });
after(() => browser.close());

// The shift, with a group called: what the README shows.
async function takePicture(path) {
    const shown = await openPage(browser, url);
    await shown.resize(1280, 1560);
    await openExample(shown, "shift");
    await runAll(shown);
    await shown.evaluate(() => goTo(4));
    await drawn(shown);
    await inStep(shown);
    await shown.click("#rows .ptt");
    await shown.evaluate(() => scrollTo(0, 0));
    await shown.screenshot(path);
    await shown.close();
}

if (picture) {
    await takePicture(picture);
    await browser.close();
    process.exit(0);
}
allShiftTests(browser, url);
allUseTests(browser, url);
run({ seconds: 600 });
