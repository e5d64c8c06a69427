with Ada.Finalization; with Ada.Text_IO;
procedure Main is
   type Inner is new Ada.Finalization.Limited_Controlled with record Value : Integer := 1; end record;
   type Outer is new Ada.Finalization.Limited_Controlled with record Value : Integer := 2; end record;
   type Outermost is new Ada.Finalization.Limited_Controlled with record Value : Integer := 3; end record;
   type Pair is record Place : Integer := 0; One : Outer; Two : Inner; end record;
   overriding procedure Finalize (Object : in out Inner);
   overriding procedure Finalize (Object : in out Outer);
   overriding procedure Finalize (Object : in out Outermost);
   overriding procedure Finalize (Object : in out Outermost) is
      P : Pair;
   begin
      Ada.Text_IO.Put_Line (Integer'Image (Object.Value));
      P.One.Value := 20;
   end Finalize;
   overriding procedure Finalize (Object : in out Outer) is
      I : Inner;
   begin
      Ada.Text_IO.Put_Line (Integer'Image (Object.Value));
      I.Value := 10;
   end Finalize;
   overriding procedure Finalize (Object : in out Inner) is
   begin
      Ada.Text_IO.Put_Line (Integer'Image (Object.Value));
   end Finalize;
   O : Outermost;
begin
   O.Value := 30;
end Main;
