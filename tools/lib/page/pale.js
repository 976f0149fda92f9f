// The texts of a page whose contrast with what is behind them is below 4.5, for the checks in a browser.
(() => {
  const canvas = document.createElement("canvas").getContext("2d", { willReadFrequently: true });
  const numbers = (colour) => {
    canvas.clearRect(0, 0, 1, 1);
    canvas.fillStyle = colour;
    canvas.fillRect(0, 0, 1, 1);
    return canvas.getImageData(0, 0, 1, 1).data;
  };
  const linear = (part) => (part / 255 <= 0.03928 ? part / 255 / 12.92 : ((part / 255 + 0.055) / 1.055) ** 2.4);
  const light = ([red, green, blue]) => 0.2126 * linear(red) + 0.7152 * linear(green) + 0.0722 * linear(blue);
  const behind = (part) => {
    const found = part ? numbers(getComputedStyle(part).backgroundColor) : [255, 255, 255, 255];
    return found[3] ? found : behind(part.parentElement);
  };
  const hasText = (part) => [...part.childNodes].some((node) => node.nodeType === Node.TEXT_NODE && node.data.trim());
  const isPale = (part) => {
    const [more, less] = [light(numbers(getComputedStyle(part).color)), light(behind(part))].sort((a, b) => b - a);
    return (more + 0.05) / (less + 0.05) < 4.5;
  };
  return [...document.querySelectorAll("body *:not(script, noscript)")]
    .filter((part) => part.checkVisibility() && !part.disabled && hasText(part) && isPale(part))
    .map((part) => part.outerHTML.slice(0, 60));
})()
