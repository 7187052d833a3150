import {useState} from 'react';

export function Cart({items}) {
  const [coupon, setCoupon] = useState({code: '', off: 0});
  const total = {sum: 0};
  for (const item of items) {
    item.seen = true;
    total.sum += item.price;
  }
  const apply = () => {
    coupon.off = 10;
    setCoupon(coupon);
  };
  return <button onClick={apply}>{total.sum - coupon.off}</button>;
}
