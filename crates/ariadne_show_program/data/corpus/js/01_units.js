"use strict";

var grüße = "a";
function count(basket) {
	if (basket = "🍐" + pears) {
		debugger;
	}
	return basket /* 漢字 */ + apples
}
