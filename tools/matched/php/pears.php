<?php
function weigh(string $pear): int {
    return $pear + 1
}
