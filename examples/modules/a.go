package p

import "m/size"

const Total = size.Large + size.Small
