// Measures a page of `tampermauve show` as it opens and then with all its rounds open, and leaves what it found in the place of
// the page. tests/page.sh appends it to a copy of the page, behind a script that sets `expected`:
//   records       [[round, worker, op, number, outcome], ...]
//   onPaper       whether the rules for paper hold, by which every round is open at once
//   pictureLimit  the height that no picture may pass, or 0
"use strict";
(() => {
    const SLACK = 0.6; // of a pixel: what rounding may do
    const complaints = [];
    const counts = { texts: 0, pictures: 0, marks: 0 };
    let state = "as it opens";
    const complain = (what) => complaints.push(`${state}: ${what}`);

    const isInside = (inner, outer) =>
        inner.left >= outer.left - SLACK && inner.right <= outer.right + SLACK &&
        inner.top >= outer.top - SLACK && inner.bottom <= outer.bottom + SLACK;
    const doOverlap = (a, b) =>
        a.left < b.right - SLACK && b.left < a.right - SLACK && a.top < b.bottom - SLACK && b.top < a.bottom - SLACK;
    const named = (element) => `"${element.textContent.trim().slice(0, 60)}"`;
    const boxOf = (element) => element.getBoundingClientRect();

    // Letters are lower than their line: the parts above capitals and below the base line may meet others.
    const inkOf = (text) => {
        const box = boxOf(text);
        const trim = box.height * 0.12;
        return { left: box.left, right: box.right, top: box.top + trim, bottom: box.bottom - trim };
    };

    const bandName = (element) => (element.closest(".band") || { id: "no band" }).id;

    function measureTextsInColumns(where, texts, columns) {
        for (const text of texts) {
            const box = boxOf(text);
            const column = columns.find((c) => box.left >= c.left - SLACK && box.left < c.right);
            if (!text.classList.contains("wide") && (!column || box.right > column.right + SLACK))
                complain(`${where}: ${named(text)} is wider than its lane or column`);
        }
    }

    function measureOverlaps(where, texts, shapes) {
        const boxes = texts.map((text) => ({ text, box: inkOf(text) })).sort((a, b) => a.box.top - b.box.top);
        boxes.forEach((one, i) => {
            for (let j = i + 1; j < boxes.length && boxes[j].box.top < one.box.bottom; j++)
                if (doOverlap(one.box, boxes[j].box))
                    complain(`${where}: ${named(one.text)} overlaps ${named(boxes[j].text)}`);
            for (const shape of shapes)
                if (doOverlap(one.box, shape.box))
                    complain(`${where}: ${named(one.text)} lies on a drawing (${shape.name})`);
        });
    }

    // The token's way has corners, so that its box would hold what lies between them: it is measured leg by leg.
    function legsOf(pass) {
        const [x, top, middle, end, bottom] = pass.getAttribute("d").match(/\d+/g).map(Number);
        const legs = [[x, top, x, middle], [Math.min(x, end), middle, Math.max(x, end), middle], [end, middle, end, bottom]];
        const toScreen = (left, upper) => new DOMPoint(left, upper).matrixTransform(pass.getScreenCTM());
        return legs.map(([left, upper, right, lower]) => {
            const from = toScreen(left, upper), to = toScreen(right, lower);
            return { name: "the token's way", box: { left: from.x - 1, top: from.y - 1, right: to.x + 1, bottom: to.y + 1 } };
        });
    }

    const shapeBoxes = (picture) => [
        ...[...picture.querySelectorAll(".ink:not(.pass), .mark, .arrival, .leaves")].map((shape) =>
            ({ name: shape.getAttribute("class"), box: boxOf(shape) })),
        ...[...picture.querySelectorAll(".pass")].flatMap(legsOf),
    ];

    function measurePicture(picture) {
        const where = bandName(picture);
        const texts = [...picture.querySelectorAll("text")].filter((text) => text.textContent.trim() !== "");
        const columns = [...picture.querySelectorAll("rect.lane, rect.column")].map(boxOf);
        const frame = boxOf(picture);
        counts.pictures++;
        counts.texts += texts.length;
        for (const text of texts)
            if (!isInside(boxOf(text), frame))
                complain(`${where}: ${named(text)} crosses the border of its picture`);
        if (expected.pictureLimit > 0 && frame.height > expected.pictureLimit)
            complain(`${where}: a picture is ${Math.round(frame.height)} high and would be cut on paper`);
        measureTextsInColumns(where, texts, columns);
        measureOverlaps(where, texts, shapeBoxes(picture));
    }

    function measureWidth() {
        const page = document.documentElement;
        if (page.scrollWidth > page.clientWidth)
            complain(`the page is ${page.scrollWidth} wide, the window ${page.clientWidth}`);
        for (const element of document.querySelectorAll("h1, h2, h3, p, li, table, nav, section"))
            if (boxOf(element).right > page.clientWidth + SLACK)
                complain(`${element.tagName} ${named(element)} goes beyond the window`);
    }

    const isOpen = (band) => band.querySelector(".body").getClientRects().length > 0;

    function measureBands(everyBandIsOpen) {
        const bands = [...document.querySelectorAll(".band")];
        for (const band of bands) {
            if (band.querySelector("h3").getClientRects().length === 0)
                complain(`${band.id} has no heading that shows`);
            if (everyBandIsOpen && !isOpen(band))
                complain(`${band.id} is folded`);
        }
        if (bands.length > 0 && !isOpen(bands[0]))
            complain("the first round is folded");
    }

    function compareRow(record, number) {
        const row = document.getElementById(`record-${number}`);
        if (!row)
            return complain(`record ${number} has no row in the table`);
        const cells = [...row.cells].map((cell) => cell.textContent.trim());
        const shown = [cells[1], cells[2], cells[3], cells[5], cells[6]].map(Number);
        if (cells[0] !== String(number) || shown.join() !== record.join())
            complain(`record ${number} is ${record.join(" ")}, the table has ${cells[0]}: ${shown.join(" ")}`);
    }

    function compareMark(record, number) {
        const [round, worker, op, operand, outcome] = record;
        const mark = document.getElementById(`mark-${number}`);
        if (!mark)
            return complain(`record ${number} has no mark in the picture`);
        const says = `record ${number}: round ${round}, worker ${worker}, op ${op}, number ${operand}, outcome ${outcome} (`;
        counts.marks++;
        if (!mark.querySelector("title").textContent.startsWith(says))
            complain(`the mark of record ${number} does not say "${says}"`);
        if (bandName(mark) !== `round-${round}`)
            complain(`the mark of record ${number} is in ${bandName(mark)}, not in round ${round}`);
        if (mark.getClientRects().length > 0)
            compareLane(mark, worker, number);
    }

    function compareLane(mark, worker, number) {
        const lane = boxOf(mark.closest("svg").querySelector(`rect.lane[data-worker="${worker}"]`));
        const shape = boxOf(mark.querySelector(".mark"));
        if (shape.left < lane.left || shape.right > lane.right)
            complain(`the mark of record ${number} is not in the lane of worker ${worker}`);
    }

    function compareRecords() {
        expected.records.forEach((record, i) => {
            compareRow(record, i + 1);
            compareMark(record, i + 1);
        });
        const rows = document.querySelectorAll("table.log tbody tr").length;
        const marks = document.querySelectorAll(".step-mark").length;
        if (rows !== expected.records.length || marks !== expected.records.length)
            complain(`the log has ${expected.records.length} records, the table ${rows} rows, the picture ${marks} marks`);
    }

    function measure(everyBandIsOpen) {
        measureWidth();
        measureBands(everyBandIsOpen);
        document.querySelectorAll(".body svg").forEach((picture) => {
            if (picture.getClientRects().length > 0)
                measurePicture(picture);
        });
        compareRecords();
        if (counts.pictures === 0 || counts.texts === 0)
            complain("there is no picture to measure");
    }

    try {
        measure(expected.onPaper);
        if (!expected.onPaper) {
            document.getElementById("all").click();
            state = "with all rounds open";
            measure(true);
        }
    } catch (error) {
        complain(`the measuring failed: ${error.message}`);
    }
    const summary = `measured ${window.innerWidth} wide: ${counts.pictures} pictures, ${counts.texts} texts, ${counts.marks} marks`;
    const lines = [summary, ...complaints.map((complaint) => `wrong ${complaint}`)];
    const found = document.createElement("pre");
    found.textContent = lines.join("\n") + "\nend of measuring\n";
    document.body.replaceChildren(found);
})();
