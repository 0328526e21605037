<?php
function weigh(array $apple): int {
    echo $unset;
    return $apple["weight"];
}
echo weigh(["weight" => 1.5]), "\n";
weigh([]);
