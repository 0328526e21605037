// größe: 🍐 漢
class Letters {
	int a = /* é */ apple;
}
