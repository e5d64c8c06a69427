procedure Main is begin null; end Mine;
