/* 🍐 */ interface Pear { weight: number; }
const heavy: Pear = { weight: "one" };
/* 🍐 é */ const light: Pear = {};
function weigh(pear: Pear): number {
	return pear.wieght;
}
weigh(heavy, light);
