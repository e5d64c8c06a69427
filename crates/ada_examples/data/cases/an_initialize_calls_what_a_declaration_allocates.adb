with Ada.Finalization; with Ada.Text_IO; with Ada.Unchecked_Deallocation;
procedure Main is
   type Cell is record Value : Integer := 7; end record;
   type Link is access Cell;
   type Holder is new Ada.Finalization.Limited_Controlled with record Held : Link; end record;
   overriding procedure Initialize (Object : in out Holder);
   procedure Make (L : in out Link) is
      Made : Link := new Cell;
   begin
      L := Made;
   end Make;
   overriding procedure Initialize (Object : in out Holder) is
      Mine : Link;
   begin
      Make (Mine);
      Object.Held := Mine;
   end Initialize;
   H : Holder;
begin
   Ada.Text_IO.Put_Line (Integer'Image (H.Held.Value));
end Main;
