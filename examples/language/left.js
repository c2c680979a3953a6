// A script of the language, which `check` reads.
const limit = 10;
let counts = { even: 0, odd: 0, get all() { return counts.even + counts.odd; } };

function isEven(n) {
    return n % 2 === 0;
}

for (let i = 0; i < limit; i++) {
    if (isEven(i)) counts.even += 1;
    else counts.odd += 1;
}

try {
    if (counts["all"] !== limit) throw "lost";
    print(counts.all);
} catch (e) {
    print("caught", e);
} finally {
    let names = ["even", "odd"].map(name => { return name + "!"; });
    print(names[0] ? names[0] : delete names[1]);
}
