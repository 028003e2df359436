printf '* TODO Pay\n' > plan
exec < plan
