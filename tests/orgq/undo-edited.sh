"$orgq" --at "2024-02-28 10:30" done work.org:2 > /dev/null
sed -i '2s/offer/order/' work.org
