import { element } from './sheets.js';

/** Buttons that open the checker with the certificate of what an answer shows: one, or one for each side of a limit. */
export function checkButtons({ span: { station, begin, end }, marksAsked: marks, zone }) {
  return (marks.length > 0 ? marks : ['']).map(mark => {
    const button = element('button', { type: 'button' }, marks.length > 1 ? `Check this list here, with ${mark}` : 'Check this list here');
    const query = new URLSearchParams({ station, begin, end, ...(mark && { mark }), zone });
    button.addEventListener('click', () => location.assign(`check.html?${query}`));
    return button;
  });
}
