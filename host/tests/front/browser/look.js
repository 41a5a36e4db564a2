// Looks at a page in the browser that shows it, and writes down what a member would see.

// The nearest background behind an element.
function behind(view, element) {
    for (let at = element; at; at = at.parentElement) {
        const colour = view.getComputedStyle(at).backgroundColor;
        if (colour !== 'rgba(0, 0, 0, 0)' && colour !== 'transparent') return colour;
    }
    return 'rgb(255, 255, 255)';
}

// How bright a colour is, as web guidelines have it.
function brightness(colour) {
    const parts = colour.match(/[\d.]+/g).slice(0, 3).map((part) => {
        const share = part / 255;
        return share <= 0.03928 ? share / 12.92 : ((share + 0.055) / 1.055) ** 2.4;
    });
    return 0.2126 * parts[0] + 0.7152 * parts[1] + 0.0722 * parts[2];
}

function contrast(view, element) {
    const ink = brightness(view.getComputedStyle(element).color);
    const paper = brightness(behind(view, element));
    return (Math.max(ink, paper) + 0.05) / (Math.min(ink, paper) + 0.05);
}

function shown(element) {
    return element.innerText.replace(/\s+/g, ' ').trim();
}

// A word of a grid: its address, itself, its mark, and what pointing at it tells.
function word(view, row, cell, place) {
    const address = parseInt(row.querySelector('th').innerText, 16) + place;
    cell.focus();
    const told = view.getComputedStyle(cell, '::after').content;
    const seen = cell.getClientRects().length > 0 ? '' : ' (not seen)';
    return `    word ${address.toString(16).toUpperCase().padStart(4, '0')} ${shown(cell)} ${told}${seen}`;
}

function grid(view, table) {
    const lines = [];
    for (const row of table.rows) {
        const cells = row.querySelectorAll('td');
        if (row.className === 'gap') lines.push(`    words ${shown(row)}`);
        else cells.forEach((cell, place) => lines.push(word(view, row, cell, place)));
    }
    return lines;
}

function article(view, part) {
    const lines = [`  cell ${part.dataset.cell}: ${shown(part.querySelector('h4'))}`];
    for (const [name, what] of [['label', 'label'], ['quiet', 'note']]) {
        part.querySelectorAll(`.${name} p, .${name} li`).forEach((item) => lines.push(`    ${what} ${shown(item)}`));
    }
    const facts = part.querySelectorAll('dt');
    facts.forEach((fact) => lines.push(`    ${shown(fact)}: ${shown(fact.nextElementSibling)}`));
    lines.push(...grid(view, part.querySelector('table.words')));
    part.querySelectorAll('.runs li').forEach((item) => lines.push(`    run ${shown(item)}`));
    return lines;
}

function table(section) {
    return [...section.querySelectorAll('tbody tr')].map((row) => `  ${[...row.cells].map(shown).join(' | ')}`);
}

function look(view) {
    const page = view.document;
    const lines = [`title ${page.title}`, `header ${shown(page.querySelector('header'))}`];
    page.querySelectorAll('nav').forEach((nav) => lines.push('index', ...table(nav)));
    for (const owner of page.querySelectorAll('.owner')) {
        lines.push(`owner ${shown(owner.querySelector('h2'))}`);
        for (const part of owner.querySelectorAll('h3, .cell, .unsound')) {
            if (part.matches('.cell')) lines.push(...article(view, part));
            else lines.push(`  ${shown(part)}`);
        }
    }
    for (const name of ['stack', 'refused']) lines.push(name, ...table(page.querySelector(`.${name}`)));
    lines.push(`area ${shown(page.querySelector('.area'))}`);
    return lines;
}

// What must hold of any page at any width.
function judge(view) {
    const page = view.document;
    const wide = page.documentElement.scrollWidth > view.innerWidth;
    const texts = [...page.querySelectorAll('p, li, dt, dd, td, th, h1, h2, h3, h4, i, b, small, code')];
    const least = Math.min(...texts.filter((text) => text.innerText).map((text) => contrast(view, text)));
    const names = new Set([...page.querySelectorAll('[id]')].map((part) => part.id));
    const ways = [...page.querySelectorAll('a')].map((way) => way.getAttribute('href'));
    return [
        `fits the width: ${wide ? 'no' : 'yes'}`,
        `readable: ${least >= 4.5 ? 'yes' : `no, contrast ${least.toFixed(2)}`}`,
        `scripts: ${page.scripts.length}`,
        `fetched: ${view.performance.getEntriesByType('resource').length}`,
        `ways that lead nowhere: ${ways.filter((way) => !names.has(way.slice(1))).length}`,
    ];
}

// Each frame when it has loaded: first what holds at its width, then all that is seen.
window.addEventListener('load', () => {
    const lines = [];
    for (const frame of document.querySelectorAll('iframe')) {
        const view = frame.contentWindow;
        lines.push(`== ${frame.title}`, ...judge(view), ...look(view));
    }
    document.querySelector('pre').textContent = lines.join('\n');
});
