printf '* TODO Pay\n' > plan.org
