$(warning soft plums)
$(error no plums)
