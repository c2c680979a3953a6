let ledger = desk.ledger;
ledger.rent = -30;
print(ledger.opening + ledger.rent);

let attempts = [
    () => { ledger.opening = 1000000; },
    () => { delete ledger.rent; },
    () => { Object.defineProperty(ledger, "rent", { value: 0 }); },
    () => { ledger.note = "free text"; },
];
attempts.forEach(attempt => {
    try {
        attempt();
        print("done");
    } catch (e) {
        print(e.message === "" ? "refused" : "refused: " + e.message);
    }
});

print(Object.keys(ledger).join(), "secret" in ledger, ledger.secret);

print(desk.door.open);
desk.shut();
try {
    desk.door.open;
} catch (e) {
    print("shut:", e instanceof TypeError);
}
