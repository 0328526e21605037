function weigh( {
