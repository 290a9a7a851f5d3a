// What the box of the page of all pages finds. SECTIONS has each section's page, place and titles; WORDS has of each
// word the numbers of its sections.

// The sections that have words which begin with each word of a question; those with all of them in a title come first.
function found(question) {
    const asked = question.toLowerCase().match(/[\p{L}\p{N}_]+/gu) || [];
    const each = asked.map(it => new Set(Object.keys(WORDS).filter(word => word.startsWith(it)).flatMap(word => WORDS[word])));
    const titled = it => asked.every(word => SECTIONS[it].slice(2).join(" ").toLowerCase().includes(word));
    const all = asked.length ? [...SECTIONS.keys()].filter(it => each.every(some => some.has(it))) : [];
    return [...all.filter(titled), ...all.filter(it => !titled(it))];
}

function show(question, list) {
    const numbers = found(question);
    list.replaceChildren(...numbers.map(number => {
        const [page, place, title, heading] = SECTIONS[number];
        const link = document.createElement("a");
        link.href = `${page}#${place}`;
        link.textContent = title === heading ? title : `${title}: ${heading}`;
        const item = document.createElement("li");
        item.append(link);
        return item;
    }));
    if (question && !numbers.length) {
        list.textContent = "No page has these words.";
    }
}

const box = document.querySelector("input[name=q]"), list = document.getElementById("found");
if (box && list) {
    box.value = new URLSearchParams(location.search).get("q") || "";
    box.addEventListener("input", () => show(box.value, list));
    show(box.value, list);
}
