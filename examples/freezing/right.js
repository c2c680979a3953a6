let rates = desk.rates;
try {
    rates.euro = 1;
} catch (e) {
    print("frozen:", e instanceof TypeError, rates.euro);
}
try {
    rates.dollar = 1;
} catch (e) {
    print("closed:", "dollar" in rates);
}
rates.more.yen = 2;
print(rates.more.yen);

// A definition that changes nothing is accepted, one that would change something is not.
print(Reflect.defineProperty(rates, "pound", { value: 117 }));
print(Reflect.defineProperty(rates, "pound", { value: 118 }));

let show = (o, key) => {
    let d = Object.getOwnPropertyDescriptor(o, key);
    return key + " is " + d.value + (d.writable ? "" : ", for good");
};
print(show(desk.account, "owner"));
print(show(desk.account, "number"));
