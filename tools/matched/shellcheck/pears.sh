#!/bin/sh
weigh() {
	echo "é" $1
    local pears=`ls`
}
weigh $wieght
if [ $a == 1 ]; then :; fi
